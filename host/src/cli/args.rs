//! Command lines: a subcommand says which words it takes, and everything else is refused.
//!
//! The table of a subcommand is its `usage` lines and its `options`. They are what `--help`, the
//! manual page and the completions print, and they are what a call is held to: each usage line is
//! a form, and a call must be of one of them. An option of another form is an error.

use super::failure::Failure;
use crate::answer::Answer;
use crate::engine::Engine;
use crate::set::Set;
use crate::streams::Expansion;
use std::ffi::{OsStr, OsString};
use std::os::unix::ffi::OsStrExt;
use std::str::FromStr;

pub struct Command {
    pub name: &'static str,
    pub about: &'static str,
    /// The lines after `usage:`, and what is to be said below the options. In a usage line small
    /// words stand for themselves, `[..]` may be left out, and of `(.. | ..)` one part must stand.
    pub usage: &'static str,
    pub notes: &'static str,
    pub options: &'static [Opt],
    pub run: fn(&Args) -> Result<Answer, Failure>,
}

/// An option with a value, or a flag where `value` is empty. `BYTES` is read, `FILE` is written.
pub struct Opt {
    pub name: &'static str,
    pub value: &'static str,
    pub about: &'static str,
    /// The values that there are, where these are few.
    pub choices: &'static [&'static str],
}

pub const fn opt(name: &'static str, value: &'static str, about: &'static str) -> Opt {
    Opt { name, value, about, choices: &[] }
}

impl Opt {
    pub const fn among(self, choices: &'static [&'static str]) -> Opt {
        Opt { choices, ..self }
    }
}

pub const ENGINE: Opt =
    opt("--engine", "NAME", "library (the proved one, the default) or model (the independent one)")
        .among(&["library", "model"]);
pub const EXPANSION: Opt =
    opt("--expansion", "NAME", "of the public seed: aes (the default) or shake")
        .among(&["aes", "shake"]);
pub const OUT: Opt = opt(
    "--out",
    "FILE",
    "write the bytes there, not as hexadecimal to the terminal; - is standard output",
);
pub const JSON: Opt = opt("--json", "", "print JSON");

/// One usage line: the words that stand for themselves with their places, the options of which one
/// of each group must stand, and those that may.
pub struct Form {
    literals: Vec<(usize, &'static str)>,
    must: Vec<Vec<&'static str>>,
    may: Vec<&'static str>,
}

impl Form {
    fn read(line: &'static str) -> Form {
        let mut form = Form { literals: Vec::new(), must: Vec::new(), may: Vec::new() };
        let (mut place, mut optional, mut group) = (0, false, false);
        for word in line.split_whitespace() {
            optional |= word.starts_with('[');
            if word.starts_with('(') {
                group = true;
                form.must.push(Vec::new());
            }
            let bare = word.trim_matches(['[', ']', '(', ')']);
            if bare.starts_with("--") {
                match (optional, group) {
                    (true, _) => form.may.push(bare),
                    (false, false) => form.must.push(vec![bare]),
                    (false, true) => form.must.last_mut().expect("a group").push(bare),
                }
            } else if form.must.is_empty() && form.may.is_empty() && bare != ".." {
                if !optional && bare.bytes().all(|byte| byte.is_ascii_lowercase()) {
                    form.literals.push((place, bare));
                }
                place += 1;
            }
            optional &= !word.ends_with(']');
            group &= !word.ends_with(')');
        }
        form
    }

    pub fn options(&self) -> impl Iterator<Item = &'static str> {
        self.must.iter().flatten().chain(&self.may).copied()
    }

    /// The words that stand for themselves.
    pub fn words(&self) -> impl Iterator<Item = &'static str> {
        self.literals.iter().map(|(_, word)| *word)
    }

    pub fn takes(&self, option: &str) -> bool {
        self.options().any(|name| name == option)
    }

    fn has_words_of(&self, plain: &[OsString]) -> bool {
        self.literals.iter().all(|(at, word)| plain.get(*at).is_some_and(|given| given == word))
    }

    /// The first group of which none stands.
    fn missing(&self, args: &Args) -> Option<&[&'static str]> {
        let stands = |group: &&Vec<&'static str>| group.iter().any(|name| args.flag(name));
        self.must.iter().find(|group| !stands(group)).map(Vec::as_slice)
    }

    /// A group of which more than one stands.
    fn crowded(&self, args: &Args) -> Option<&[&'static str]> {
        let count =
            |group: &&Vec<&'static str>| group.iter().filter(|name| args.flag(name)).count();
        self.must.iter().find(|group| count(group) > 1).map(Vec::as_slice)
    }
}

impl Command {
    pub fn forms(&self) -> Vec<Form> {
        self.usage.split('\n').map(Form::read).collect()
    }

    /// The usage lines, each with the words that lead to it.
    pub fn synopsis(&self) -> impl Iterator<Item = String> {
        self.usage
            .split('\n')
            .map(|line| format!("snova {} {line}", self.name).trim_end().to_string())
    }

    pub fn help(&self) -> String {
        let mut text = format!("snova {}: {}\n\nusage:\n", self.name, self.about);
        for line in self.synopsis() {
            text += &format!("  {line}\n");
        }
        text += "\noptions:\n";
        for option in self.options {
            let left = format!("{} {}", option.name, option.value);
            text += &format!("  {left:<21} {}\n", option.about);
        }
        text += "  --help                this text\n";
        if !self.notes.is_empty() {
            text += &format!("\n{}\n", self.notes);
        }
        text
    }
}

/// The words of one call: those without a name in their order, and the options.
pub struct Args {
    plain: Vec<OsString>,
    options: Vec<(&'static Opt, OsString)>,
}

impl Args {
    pub fn parse(command: &'static Command, words: &[OsString]) -> Result<Args, Failure> {
        let mut args = Args { plain: Vec::new(), options: Vec::new() };
        let mut words = words.iter();
        while let Some(word) = words.next() {
            if !word.as_bytes().starts_with(b"--") {
                args.plain.push(word.clone());
                continue;
            }
            let (name, joined) = split(word);
            let option = command.options.iter().find(|option| name == option.name);
            let shown = name.display();
            let option = option.ok_or_else(|| {
                Failure::usage(format!("'{shown}' is no option; snova {} --help", command.name))
            })?;
            if args.flag(option.name) {
                return Err(Failure::usage(format!("{shown} stands twice")));
            }
            let value = match (option.value.is_empty(), joined) {
                (true, None) => OsString::new(),
                (true, Some(_)) => return Err(Failure::usage(format!("{shown} takes no value"))),
                (false, Some(value)) => value.to_os_string(),
                (false, None) => words.next().cloned().ok_or_else(|| {
                    Failure::usage(format!("{shown} needs a value, {}", option.value))
                })?,
            };
            args.options.push((option, value));
        }
        args.hold_to(command)?;
        Ok(args)
    }

    /// The call is of one of the command's forms. Words that are of none are left to the command.
    fn hold_to(&self, command: &Command) -> Result<(), Failure> {
        let all = command.forms();
        let named = |form: &&Form| !form.literals.is_empty() && form.has_words_of(&self.plain);
        let mut forms: Vec<&Form> = all.iter().filter(named).collect();
        if forms.is_empty() {
            forms = all.iter().filter(|form| form.literals.is_empty()).collect();
        }
        if forms.is_empty() {
            return Ok(());
        }
        let given: Vec<&str> = self.options.iter().map(|(option, _)| option.name).collect();
        if let Some(name) = given.iter().find(|name| !forms.iter().any(|form| form.takes(name))) {
            let words: String =
                forms[0].literals.iter().map(|(_, word)| format!(" {word}")).collect();
            return Err(Failure::usage(format!(
                "{name} does not go with snova {}{words}; snova {} --help",
                command.name, command.name
            )));
        }
        let whole: Vec<&Form> = forms
            .iter()
            .filter(|form| given.iter().all(|name| form.takes(name)))
            .copied()
            .collect();
        if whole.is_empty() {
            let apart = |a: &str, b: &str| !forms.iter().any(|form| form.takes(a) && form.takes(b));
            let pairs = given.iter().flat_map(|a| given.iter().map(move |b| (a, b)));
            let pair = pairs.into_iter().find(|(a, b)| apart(a, b));
            let (a, b) = pair.unwrap_or((&given[0], &given[given.len() - 1]));
            return Err(Failure::usage(format!("{a} and {b} do not go together: not both")));
        }
        if let Some(group) = whole.iter().find_map(|form| form.crowded(self)) {
            return Err(Failure::usage(format!("one of {} must stand", group.join(" and "))));
        }
        if whole.iter().any(|form| form.missing(self).is_none()) {
            return Ok(());
        }
        let mut missing: Vec<&str> = Vec::new();
        for name in whole.iter().filter_map(|form| form.missing(self)).flatten() {
            if !missing.contains(name) {
                missing.push(name);
            }
        }
        Err(Failure::usage(format!("{} is missing", missing.join(" or "))))
    }

    pub fn plain(&self) -> &[OsString] {
        &self.plain
    }

    pub fn option(&self, name: &str) -> Option<&OsStr> {
        let found = self.options.iter().find(|(option, _)| option.name == name);
        found.map(|(_, value)| value.as_os_str())
    }

    /// The options that name bytes to be read (`BYTES`) or a file to be written (`FILE`).
    pub fn of_kind(&self, value: &str) -> impl Iterator<Item = (&'static str, &OsStr)> {
        let fits = move |(option, _): &&(&'static Opt, OsString)| option.value == value;
        self.options.iter().filter(fits).map(|(option, value)| (option.name, value.as_os_str()))
    }

    pub fn flag(&self, name: &str) -> bool {
        self.option(name).is_some()
    }

    pub fn required(&self, name: &str) -> Result<&OsStr, Failure> {
        self.option(name).ok_or_else(|| Failure::usage(format!("{name} is missing")))
    }

    /// An option's value read, or a default.
    pub fn parsed<T: FromStr>(&self, name: &str, default: T) -> Result<T, Failure>
    where
        T::Err: std::fmt::Display,
    {
        match self.option(name) {
            None => Ok(default),
            Some(value) => {
                let text = value.to_string_lossy();
                text.parse().map_err(|reason| Failure::usage(format!("{name} {text}: {reason}")))
            }
        }
    }

    pub fn engine(&self) -> Result<Engine, Failure> {
        self.parsed("--engine", Engine::Library)
    }

    pub fn expansion(&self) -> Result<Expansion, Failure> {
        self.parsed("--expansion", Expansion::Aes)
    }

    /// The one plain word of a subcommand that takes a set and nothing more.
    pub fn only_set(&self) -> Result<Set, Failure> {
        match self.plain() {
            [set] => read_set(set),
            [] => Err(Failure::usage("SET is missing")),
            [_, extra, ..] => {
                Err(Failure::usage(format!("'{}' is one word too many", extra.display())))
            }
        }
    }
}

/// An option's word, cut at its first `=`.
fn split(word: &OsStr) -> (&OsStr, Option<&OsStr>) {
    let bytes = word.as_bytes();
    match bytes.iter().position(|byte| *byte == b'=') {
        None => (word, None),
        Some(at) => (OsStr::from_bytes(&bytes[..at]), Some(OsStr::from_bytes(&bytes[at + 1..]))),
    }
}

pub fn read_set(text: &OsStr) -> Result<Set, Failure> {
    let text = text.to_string_lossy();
    text.parse().map_err(|reason| Failure::usage(format!("SET {reason}")))
}
