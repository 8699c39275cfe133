//! What the tool says when it does not do what was asked, and the exit status for it.

use crate::answer::Answer;
use crate::kat::Refused;
use crate::set::{SALT, Set};
use std::fmt;
use std::path::Path;

/// Exit statuses beside page 01's numbers: a wrong command line, a file that fails.
pub const USAGE: i32 = 64;
pub const FILE: i32 = 74;

#[derive(Debug)]
pub struct Failure {
    pub status: i32,
    pub text: String,
}

/// How long an argument is. What has an exact length is read at most one byte past it, so of what
/// comes through a pipe no more may be known.
#[derive(Clone, Copy, PartialEq, Eq, Debug)]
pub enum Length {
    Exactly(usize),
    MoreThan(usize),
}

impl fmt::Display for Length {
    fn fmt(&self, f: &mut fmt::Formatter) -> fmt::Result {
        match self {
            Length::Exactly(count) => write!(f, "{count} bytes"),
            Length::MoreThan(count) => write!(f, "more than {count} bytes"),
        }
    }
}

/// An argument whose length an operation can refuse.
pub struct Given {
    pub refusal: Answer,
    pub argument: &'static str,
    pub length: Length,
    pub exact: usize,
}

impl Failure {
    pub fn usage(text: impl Into<String>) -> Failure {
        Failure { status: USAGE, text: text.into() }
    }

    pub fn file(text: impl Into<String>) -> Failure {
        Failure { status: FILE, text: text.into() }
    }

    /// An answer other than done, without an argument to blame.
    pub fn answer(answer: Answer, set: Set) -> Failure {
        let text = match answer {
            Answer::SET => set_text(set),
            Answer::REDO => format!("answers {answer}"),
            Answer::NOT_INVERTIBLE => format!("refused with {answer}: the ABQ stream, set {set}"),
            _ => format!("refused with {answer}, set {set}"),
        };
        Failure { status: answer.number() as i32, text }
    }

    /// A response file that the proved reader refuses.
    pub fn response(file: &Path, refused: &Refused) -> Failure {
        let status = refused.answer.number() as i32;
        Failure { status, text: format!("'{}': {refused}", file.display()) }
    }

    /// A salt that is not 16 bytes: it is refused here where it is hashed before the call.
    pub fn salt(set: Set, length: Length) -> Failure {
        let given = Given { refusal: Answer::SALT, argument: "--salt", length, exact: SALT };
        Failure::about(Answer::SALT, set, &[given])
    }

    /// An answer other than done, with the argument that it is about.
    pub fn about(answer: Answer, set: Set, given: &[Given]) -> Failure {
        let mut failure = Failure::answer(answer, set);
        if let Some(given) = given.iter().find(|given| given.refusal == answer) {
            let Given { argument, length, exact, .. } = given;
            failure.text =
                format!("refused with {answer}: {argument} has {length}, set {set} takes {exact}");
        }
        failure
    }
}

fn set_text(set: Set) -> String {
    format!(
        "refused with {}: SET is {set}; v goes from 1 to 75, o from 1 to 33, l from 2 to 4, \
         and o l^2 up to 160",
        Answer::SET
    )
}
