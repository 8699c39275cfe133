//! `snova sizes`: the lengths of every buffer.

use super::args::{Args, Command, JSON, read_set};
use super::failure::Failure;
use super::output;
use crate::answer::Answer;
use crate::set::{ROUND_2, Set};

pub const COMMAND: Command = Command {
    name: "sizes",
    about: "the length in bytes of every buffer of a set",
    usage: "[SET ..] [--json]",
    notes: "Without a set: the paper's nine round 2 sets with l up to 4. The key leaves out the public\n\
            seed, 16 bytes; the signature includes the salt, 16 bytes.",
    options: &[JSON],
    run,
};

fn run(args: &Args) -> Result<Answer, Failure> {
    let mut sets: Vec<Set> =
        args.plain().iter().map(|text| read_set(text)).collect::<Result<_, _>>()?;
    if sets.is_empty() {
        sets = ROUND_2.to_vec();
    }
    let mut lines = vec![row("set", NAMES)];
    let mut objects = Vec::new();
    for set in sets {
        let exact = set.lengths().ok_or_else(|| Failure::answer(Answer::SET, set))?;
        let columns = [
            exact.public,
            exact.abq,
            exact.private,
            exact.vinegar,
            exact.target,
            exact.key,
            exact.signature,
            exact.work,
        ];
        lines.push(row(&set.to_string(), columns));
        objects.push(object(set, columns));
    }
    let json = format!("[{}]\n", objects.join(",\n "));
    output::print(&if args.flag("--json") { json } else { lines.concat() })?;
    Ok(Answer::DONE)
}

const NAMES: [&str; 8] =
    ["public", "ABQ", "private", "vinegar", "target", "key", "signature", "work"];

fn object(set: Set, columns: [usize; 8]) -> String {
    let Set { v, o, l } = set;
    let columns = NAMES
        .iter()
        .zip(columns)
        .map(|(name, column)| format!(",\"{}\":{column}", name.to_ascii_lowercase()));
    format!("{{\"v\":{v},\"o\":{o},\"l\":{l}{}}}", columns.collect::<String>())
}

fn row<T: std::fmt::Display>(set: &str, columns: [T; 8]) -> String {
    let columns: String = columns.iter().map(|column| format!(" {column:>9}")).collect();
    format!("{set:<10}{columns}\n")
}
