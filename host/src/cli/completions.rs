//! `snova completions`: what a shell offers while a call is typed, from the one table.

use super::args::{Args, Command, Opt};
use super::failure::Failure;
use super::{COMMANDS, output};
use crate::answer::Answer;

pub const COMMAND: Command = Command {
    name: "completions",
    about: "completions for a shell: bash, zsh or fish",
    usage: "bash\nzsh\nfish",
    notes: "example: source <(snova completions bash)",
    options: &[],
    run,
};

fn run(args: &Args) -> Result<Answer, Failure> {
    let text = match args.plain() {
        [shell] if shell == "bash" => bash(),
        [shell] if shell == "zsh" => zsh(),
        [shell] if shell == "fish" => fish(),
        _ => return Err(Failure::usage("'bash', 'zsh' or 'fish' must stand, no more")),
    };
    output::print(&text)?;
    Ok(Answer::DONE)
}

/// The words of a usage line that stand for themselves, as `check` of `snova kat`.
fn words(command: &Command) -> Vec<&'static str> {
    let mut words: Vec<&'static str> = Vec::new();
    for word in command.forms().iter().flat_map(|form| form.words().collect::<Vec<_>>()) {
        if !words.contains(&word) {
            words.push(word);
        }
    }
    words
}

fn names(options: &[Opt]) -> Vec<&'static str> {
    options.iter().map(|option| option.name).chain(["--help"]).collect()
}

fn bash() -> String {
    let commands: Vec<&str> = COMMANDS.iter().map(|command| command.name).collect();
    let mut text = format!(
        "# bash completion for snova, made by snova completions bash\n\
         _snova() {{\n\
         \x20   local word=${{COMP_WORDS[COMP_CWORD]}} before=${{COMP_WORDS[COMP_CWORD-1]}} words= \n\
         \x20   COMPREPLY=()\n\
         \x20   if [ \"$COMP_CWORD\" -eq 1 ]; then\n\
         \x20       COMPREPLY=($(compgen -W '{} --help --version' -- \"$word\"))\n\
         \x20       return\n\
         \x20   fi\n\
         \x20   case \"${{COMP_WORDS[1]}} $before\" in\n",
        commands.join(" ")
    )
    .replace("words= \n", "words=\n");
    for command in COMMANDS {
        for option in command.options {
            let pattern = format!("        '{} {}')", command.name, option.name);
            match (option.value, option.choices) {
                ("", _) => {}
                ("FOLDER", _) => {
                    text +=
                        &format!("{pattern} COMPREPLY=($(compgen -d -- \"$word\")); return ;;\n")
                }
                ("NUMBER", _) => text += &format!("{pattern} return ;;\n"),
                (_, []) => {
                    text +=
                        &format!("{pattern} COMPREPLY=($(compgen -f -- \"$word\")); return ;;\n")
                }
                (_, choices) => {
                    text += &format!(
                        "{pattern} COMPREPLY=($(compgen -W '{}' -- \"$word\")); return ;;\n",
                        choices.join(" ")
                    );
                }
            }
        }
    }
    text += "    esac\n    case ${COMP_WORDS[1]} in\n";
    for command in COMMANDS {
        let all = [words(command), names(command.options)].concat();
        text += &format!("        {}) words='{}' ;;\n", command.name, all.join(" "));
    }
    text + "    esac\n\
            \x20   COMPREPLY=($(compgen -W \"$words\" -- \"$word\"))\n\
            \x20   [ \"${word#-}\" != \"$word\" ] || COMPREPLY+=($(compgen -f -- \"$word\"))\n\
            }\n\
            complete -o filenames -F _snova snova\n"
}

/// Text between single quotes.
fn quoted(text: &str) -> String {
    text.replace('\'', "'\\''")
}

/// Text of a zsh description: no colon, no bracket.
fn described(text: &str) -> String {
    quoted(&text.replace(':', "\\:").replace('[', "(").replace(']', ")"))
}

fn zsh() -> String {
    let mut text = String::from(
        "#compdef snova\n# zsh completion for snova, made by snova completions zsh\n_snova() {\n    local -a commands\n    commands=(\n",
    );
    for command in COMMANDS {
        text += &format!("        '{}:{}'\n", command.name, described(command.about));
    }
    text += "    )\n    if (( CURRENT == 2 )); then\n        _describe 'subcommand' commands\n        return\n    fi\n    case $words[2] in\n";
    for command in COMMANDS {
        text += &format!("        {}) _arguments", command.name);
        for option in command.options {
            text += &format!(" \\\n            '{}[{}]", option.name, described(option.about));
            text += &match (option.value, option.choices) {
                ("", _) => String::new(),
                ("FOLDER", _) => ":folder:_files -/".to_string(),
                ("NUMBER", _) => ":number:".to_string(),
                (_, []) => ":file:_files".to_string(),
                (_, choices) => format!(":name:({})", choices.join(" ")),
            };
            text += "'";
        }
        text += " \\\n            '--help[this text]'";
        match words(command)[..] {
            [] => text += " \\\n            '*:file:_files' ;;\n",
            ref words => {
                text += &format!(
                    " \\\n            '*:word:_alternative \"words:word:({})\" \"files:file:_files\"' ;;\n",
                    words.join(" ")
                );
            }
        }
    }
    text + "    esac\n}\n_snova \"$@\"\n"
}

fn fish() -> String {
    let mut text = String::from("# fish completion for snova, made by snova completions fish\n");
    for command in COMMANDS {
        text += &format!(
            "complete -c snova -n __fish_use_subcommand -f -a {} -d '{}'\n",
            command.name,
            quoted(command.about)
        );
    }
    text += "complete -c snova -n __fish_use_subcommand -l help\ncomplete -c snova -n __fish_use_subcommand -l version\n";
    for command in COMMANDS {
        let seen = format!("complete -c snova -n '__fish_seen_subcommand_from {}'", command.name);
        for word in words(command) {
            text += &format!("{seen} -a {word}\n");
        }
        for option in command.options {
            let name = option.name.trim_start_matches("--");
            let value = match (option.value, option.choices) {
                ("", _) => String::new(),
                ("NUMBER", _) => " -x".to_string(),
                (_, []) => " -r".to_string(),
                (_, choices) => format!(" -x -a '{}'", choices.join(" ")),
            };
            text += &format!("{seen} -l {name}{value} -d '{}'\n", quoted(option.about));
        }
    }
    text
}
