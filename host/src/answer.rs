//! The numbers that a caller can receive, and what pages 01 and 02 say of each.

use std::fmt;

/// An operation's answer: the pages' number.
#[derive(Clone, Copy, PartialEq, Eq, PartialOrd, Ord, Debug)]
pub struct Answer(pub u32);

impl Answer {
    pub const DONE: Answer = Answer(0);
    pub const ACCEPTED: Answer = Answer(0);
    pub const NOT_ACCEPTED: Answer = Answer(1);
    pub const REDO: Answer = Answer(2);
    pub const SET: Answer = Answer(10);
    pub const PUBLIC: Answer = Answer(11);
    pub const ABQ: Answer = Answer(12);
    pub const PRIVATE: Answer = Answer(13);
    pub const VINEGAR: Answer = Answer(14);
    pub const TARGET: Answer = Answer(15);
    pub const KEY: Answer = Answer(16);
    pub const SALT: Answer = Answer(17);
    pub const SIGNATURE: Answer = Answer(18);
    pub const WORK: Answer = Answer(19);
    pub const OUTPUT: Answer = Answer(20);
    pub const NOT_INVERTIBLE: Answer = Answer(21);
    pub const COUNTS: Answer = Answer(22);
    pub const ENTRY: Answer = Answer(23);
    pub const LINE: Answer = Answer(30);
    pub const ODD_DIGITS: Answer = Answer(31);
    pub const NO_DIGIT: Answer = Answer(32);
    pub const FIELD: Answer = Answer(33);
    pub const LARGE_NUMBER: Answer = Answer(34);

    /// What `meaning` says of a number that no page has.
    pub const UNKNOWN: &str = "no number of the pages";

    pub fn number(self) -> u32 {
        self.0
    }

    /// Whether the call was refused: every buffer is then as it was.
    pub fn is_refusal(self) -> bool {
        matches!(self.0, 10..=23 | 30..=34 | 40..=46)
    }

    /// The pages' words for the number.
    pub fn meaning(self) -> &'static str {
        match self.0 {
            0 => "done, or accepted",
            1 => "not accepted",
            2 => "redo: try again with another vinegar",
            10 => "the set, or a size l, is outside the limits",
            11 => "length of the public stream is not the exact one",
            12 => "length of the ABQ stream is not the exact one",
            13 => "length of the private stream is not the exact one",
            14 => "length of the vinegar stream is not the exact one",
            15 => "length of the target stream is not the exact one",
            16 => "length of the key is not the exact one",
            17 => "the salt is not 16 bytes",
            18 => "length of the signature is not the exact one",
            19 => "length of the work area is not the exact one",
            20 => "length of the output is not the exact one",
            21 => "an A or B cannot be made invertible",
            22 => "packing or unpacking: element and byte counts do not fit",
            23 => "an element or matrix entry is above 15",
            30 => "a line is unfinished, or not empty, no comment and without ' = '",
            31 => "an odd count of digits",
            32 => "not a digit, or none in a number",
            33 => "a field is unknown, repeated, missing or out of order",
            34 => "a number is above 4294967295",
            40 => "the book's size is not whole blocks, or there are too many",
            41 => "a block's check is wrong",
            42 => "a block's kind, zero byte, length or padding is wrong",
            43 => "a block is out of turn",
            44 => "good, but its exercise is spoiled",
            45 => "an empty field, a kind outside 1 to 7 or a wrong order",
            46 => "too many blocks",
            _ => Answer::UNKNOWN,
        }
    }
}

impl fmt::Display for Answer {
    fn fmt(&self, f: &mut fmt::Formatter) -> fmt::Result {
        write!(f, "{} ({})", self.0, self.meaning())
    }
}
