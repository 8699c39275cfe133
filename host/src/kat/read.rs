//! Reads a response file: the proved reader judges it, and what it accepts is taken apart here.

use super::{Entry, FIELDS};
use crate::answer::Answer;
use crate::library;
use std::fmt;

/// Why a file is refused: the page's number, and the line at fault, counted from 1; none where the
/// end of the file is at fault.
#[derive(Clone, Copy, PartialEq, Eq, Debug)]
pub struct Refused {
    pub answer: Answer,
    pub line: Option<usize>,
}

impl fmt::Display for Refused {
    fn fmt(&self, f: &mut fmt::Formatter) -> fmt::Result {
        match self.line {
            Some(line) => write!(f, "line {line}: refused with {}", self.answer),
            None => write!(f, "at the end: refused with {}", self.answer),
        }
    }
}

/// The entries of a file, or its refusal.
pub fn read(file: &[u8]) -> Result<Vec<Entry>, Refused> {
    match library::responses(file) {
        Answer::DONE => Ok(entries(file)),
        answer => Err(Refused { answer, line: line_at_fault(file) }),
    }
}

/// The first line that is at fault. Lines are sound together exactly where an unfinished line after
/// them is refused with 30 and an unknown field after them with 33, so the proved reader says which
/// is the first that is not.
fn line_at_fault(file: &[u8]) -> Option<usize> {
    let ends: Vec<usize> =
        file.iter().enumerate().filter(|(_, byte)| **byte == b'\n').map(|(at, _)| at + 1).collect();
    let sound = |end: &usize| {
        let probe = |after: &[u8]| library::responses(&[&file[..*end], after].concat());
        probe(b"#") == Answer::LINE && probe(b"x = \n") == Answer::FIELD
    };
    let first = ends.partition_point(sound);
    (first < ends.len()).then_some(first + 1)
}

/// The entries of an accepted file.
fn entries(file: &[u8]) -> Vec<Entry> {
    let lines = file.split(|byte| *byte == b'\n');
    let values: Vec<&[u8]> =
        lines.filter(|line| !line.is_empty() && line[0] != b'#').map(value).collect();
    values.chunks_exact(FIELDS.len()).map(entry).collect()
}

fn entry(values: &[&[u8]]) -> Entry {
    Entry {
        count: number(values[0]),
        seed: bytes(values[1]),
        mlen: number(values[2]),
        msg: bytes(values[3]),
        pk: bytes(values[4]),
        sk: bytes(values[5]),
        smlen: number(values[6]),
        sm: bytes(values[7]),
    }
}

/// What stands after the first ` = ` of a field's line.
fn value(line: &[u8]) -> &[u8] {
    let at = line.windows(3).position(|part| part == b" = ").expect("an accepted line");
    &line[at + 3..]
}

fn number(digits: &[u8]) -> u32 {
    digits.iter().fold(0, |number, digit| number * 10 + u32::from(digit - b'0'))
}

fn bytes(digits: &[u8]) -> Vec<u8> {
    let mut bytes = vec![0; digits.len() / 2];
    assert_eq!(library::decode_hex(digits, &mut bytes), Answer::DONE, "an accepted value");
    bytes
}
