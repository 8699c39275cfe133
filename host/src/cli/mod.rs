//! The command line tool. A subcommand answers page 01's number, which becomes the exit status.

mod args;
mod bench;
mod book;
mod completions;
mod facts;
mod failure;
mod inputs;
mod kat;
mod keygen;
mod keypair;
mod manual;
mod output;
mod pack;
mod progress;
mod salt;
mod sign;
mod sizes;
mod streams;
mod verify;

use args::{Args, Command};
use failure::Failure;
use std::ffi::OsString;

/// The one table: what is run, and what `--help`, the manual page and the completions print.
const COMMANDS: [&Command; 15] = [
    &sizes::COMMAND,
    &keypair::COMMAND,
    &keygen::COMMAND,
    &sign::COMMAND,
    &verify::COMMAND,
    &salt::COMMAND,
    &streams::COMMAND,
    &pack::PACK,
    &pack::UNPACK,
    &facts::COMMAND,
    &kat::COMMAND,
    &book::COMMAND,
    &bench::COMMAND,
    &manual::COMMAND,
    &completions::COMMAND,
];

/// The name and version that `--version` prints.
const VERSION: &str =
    concat!("snova ", env!("CARGO_PKG_VERSION"), " (SNOVA version 2, q = 16, x86-64)");

const ABOUT: &str = "the proved SNOVA model (q = 16) from the command line";

/// What holds for every subcommand.
const RULES: &str = "\
A set is written 24,5,4 or SNOVA_24_5_4. BYTES are a file's name, hex:0A1B.., zeros:COUNT,
or - for standard input. FILE is a name, or - for standard output; a file is never half
written, and no file that is read is written over. The exit status is page 01's number:
0 done or accepted, 1 not accepted, 2 redo, 10 to 46 refused. 64 stands for a wrong command
line, 74 for a file that cannot be read or written. Nothing is written on a refusal.";

/// Runs the tool on the words after its name; the exit status.
pub fn run(words: Vec<OsString>) -> i32 {
    let Some(first) = words.first() else {
        output::tell(overview().trim_end());
        return failure::USAGE;
    };
    let name = first.to_string_lossy();
    match &*name {
        "--help" | "-h" | "help" => said("snova", output::print(&overview())),
        "--version" | "-V" => said("snova", output::print(&format!("{VERSION}\n"))),
        name => match COMMANDS.iter().find(|command| command.name == name) {
            Some(command) => run_command(command, &words[1..]),
            None => {
                output::tell(&format!("snova: '{name}' is no subcommand; snova --help lists them"));
                failure::USAGE
            }
        },
    }
}

fn run_command(command: &'static Command, words: &[OsString]) -> i32 {
    if words.iter().any(|word| word == "--help" || word == "-h") {
        return said(&format!("snova {}", command.name), output::print(&command.help()));
    }
    let outcome = Args::parse(command, words)
        .and_then(|args| output::apart(&args).and_then(|()| (command.run)(&args)));
    match outcome {
        Ok(answer) => answer.number() as i32,
        Err(failure) => said(&format!("snova {}", command.name), Err(failure)),
    }
}

/// The exit status of text that was to be printed.
fn said(name: &str, result: Result<(), Failure>) -> i32 {
    match result {
        Ok(()) => 0,
        Err(Failure { status, text }) => {
            output::tell(&format!("{name}: {text}"));
            status
        }
    }
}

fn overview() -> String {
    let mut text = format!(
        "snova: {ABOUT}\n\n\
         usage: snova SUBCOMMAND ..       snova SUBCOMMAND --help tells more\n\n"
    );
    for command in COMMANDS {
        text += &format!("  {:<11} {}\n", command.name, command.about);
    }
    text + "\n" + RULES + "\n"
}

#[cfg(test)]
mod tests {
    use super::*;

    /// Every option of a subcommand stands in a usage line, with its value, and every option of a
    /// usage line is in the table: so what is printed is what is taken.
    #[test]
    fn usage_lines_and_options_agree() {
        for command in COMMANDS {
            let forms = command.forms();
            for option in command.options {
                let name = option.name;
                assert!(forms.iter().any(|form| form.takes(name)), "{} {name}", command.name);
                let shown = format!("{name} {}", option.value);
                assert!(command.usage.contains(shown.trim_end()), "{} {shown}", command.name);
            }
            for name in forms.iter().flat_map(|form| form.options()) {
                let known = command.options.iter().any(|option| option.name == name);
                assert!(known, "{} {name}", command.name);
            }
        }
    }
}
