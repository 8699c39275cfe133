//! `snova manual`: the manual page, from the one table.

use super::args::{Args, Command};
use super::failure::{FILE, Failure, USAGE};
use super::{ABOUT, COMMANDS, RULES, VERSION, output};
use crate::answer::Answer;

pub const COMMAND: Command = Command {
    name: "manual",
    about: "this tool's manual page, for man",
    usage: "",
    notes: "example: snova manual > snova.1; man ./snova.1",
    options: &[],
    run,
};

fn run(args: &Args) -> Result<Answer, Failure> {
    if let [word, ..] = args.plain() {
        return Err(Failure::usage(format!("'{}' is one word too many", word.display())));
    }
    output::print(&page())?;
    Ok(Answer::DONE)
}

/// Text as the page has it: a minus that is one, and no line that begins with a dot or a quote.
fn safe(text: &str) -> String {
    let lines = text.lines().map(|line| {
        let line = line.replace('\\', "\\e").replace('-', "\\-");
        if line.starts_with(['.', '\'']) { format!("\\&{line}") } else { line }
    });
    lines.collect::<Vec<String>>().join("\n")
}

fn page() -> String {
    let version = VERSION.split(" (").next().unwrap_or(VERSION);
    let mut text =
        format!(".TH SNOVA 1 \"\" \"{}\"\n.SH NAME\nsnova \\- {}\n", safe(version), safe(ABOUT));
    text += ".SH SYNOPSIS\n.nf\nsnova SUBCOMMAND ..\nsnova SUBCOMMAND \\-\\-help\nsnova \\-\\-help\nsnova \\-\\-version\n.fi\n";
    text += &format!(".SH DESCRIPTION\n{}\n.SH SUBCOMMANDS\n", safe(RULES));
    for command in COMMANDS {
        text += &section(command);
    }
    text += ".SH EXIT STATUS\n";
    let known = (0..USAGE as u32)
        .map(|number| (number, Answer(number).meaning()))
        .filter(|(_, meaning)| *meaning != Answer::UNKNOWN);
    let other =
        [(USAGE as u32, "a wrong command line"), (FILE as u32, "a file cannot be read or written")];
    for (number, meaning) in known.chain(other) {
        text += &format!(".TP\n.B {number}\n{}\n", safe(meaning));
    }
    text
}

fn section(command: &Command) -> String {
    let mut text = format!(".SS snova {}\n{}.\n.PP\n.nf\n", command.name, safe(command.about));
    for line in command.synopsis() {
        text += &format!("{}\n", safe(&line));
    }
    text += ".fi\n";
    for option in command.options {
        let left = format!("{} {}", option.name, option.value);
        text += &format!(".TP\n.B {}\n{}.\n", safe(left.trim_end()), safe(option.about));
    }
    if !command.notes.is_empty() {
        text += &format!(".PP\n{}\n", safe(command.notes));
    }
    text
}
