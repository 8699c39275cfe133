//! Parameter sets, and the lengths that page 01 gives each stream.

use std::fmt;
use std::str::FromStr;

/// A parameter set (v, o, l). Any three numbers can stand here: `allowed` says which are sets.
#[derive(Clone, Copy, PartialEq, Eq, Hash, Debug)]
pub struct Set {
    pub v: usize,
    pub o: usize,
    pub l: usize,
}

/// The exact length in bytes of every buffer of one set.
#[derive(Clone, Copy, PartialEq, Eq, Debug)]
pub struct Lengths {
    pub public: usize,
    pub abq: usize,
    pub private: usize,
    pub vinegar: usize,
    pub target: usize,
    pub key: usize,
    pub signature: usize,
    pub work: usize,
}

/// Bytes of a salt, of a public and of a private seed.
pub const SALT: usize = 16;
pub const PUBLIC_SEED: usize = 16;
pub const PRIVATE_SEED: usize = 32;

/// The paper's round 2 sets with l up to 4, by security level and then by l.
pub const ROUND_2: [Set; 9] = [
    Set::new(37, 17, 2),
    Set::new(25, 8, 3),
    Set::new(24, 5, 4),
    Set::new(56, 25, 2),
    Set::new(49, 11, 3),
    Set::new(37, 8, 4),
    Set::new(75, 33, 2),
    Set::new(66, 15, 3),
    Set::new(60, 10, 4),
];

/// The bytes that hold a number of packed elements.
pub const fn bytes_of(elements: usize) -> usize {
    elements.div_ceil(2)
}

impl Set {
    pub const fn new(v: usize, o: usize, l: usize) -> Set {
        Set { v, o, l }
    }

    /// Page 01's limits. The last product is reached only with small numbers, so it cannot overflow.
    pub const fn allowed(self) -> bool {
        1 <= self.v
            && self.v <= 75
            && 1 <= self.o
            && self.o <= 33
            && 2 <= self.l
            && self.l <= 4
            && self.o * self.l * self.l <= 160
    }

    pub const fn n(self) -> usize {
        self.v + self.o
    }

    /// The number of terms alpha of an equation.
    pub const fn terms(self) -> usize {
        self.l * self.l + self.l
    }

    /// The lengths of an allowed set, and none of any other.
    pub const fn lengths(self) -> Option<Lengths> {
        if !self.allowed() {
            return None;
        }
        let Set { v, o, l } = self;
        let block = l * l;
        let unknowns = o * block;
        Some(Lengths {
            public: bytes_of(o * (v * v + 2 * v * o) * block),
            abq: bytes_of(o * self.terms() * (2 * block + 2 * l)),
            private: bytes_of(v * o * l),
            vinegar: bytes_of(v * block),
            target: bytes_of(unknowns),
            key: bytes_of(o * o * unknowns),
            signature: bytes_of(self.n() * block) + SALT,
            work: unknowns * (unknowns + 1) + 3 * v * unknowns,
        })
    }

    /// The name in the manner of the paper's files, as `SNOVA_24_5_4`.
    pub fn name(self) -> String {
        format!("SNOVA_{}_{}_{}", self.v, self.o, self.l)
    }
}

impl fmt::Display for Set {
    fn fmt(&self, f: &mut fmt::Formatter) -> fmt::Result {
        write!(f, "({},{},{})", self.v, self.o, self.l)
    }
}

impl FromStr for Set {
    type Err = String;

    /// Reads `24,5,4`, the paper's `(24, 5, 16, 4)` and `(24,5,16,4)-SNOVA`, and names of files as
    /// `SNOVA_24_5_4`. The set that is read need not be allowed: that is the operations' to refuse.
    fn from_str(text: &str) -> Result<Set, String> {
        let lower = text.trim().to_ascii_lowercase();
        let bare = match (lower.strip_prefix("snova"), lower.strip_suffix("snova")) {
            (Some(rest), _) => rest.trim_start_matches(['-', '_']),
            (None, Some(rest)) => rest.trim_end_matches(['-', '_']),
            (None, None) => &lower,
        };
        let inner = bare.strip_prefix('(').and_then(|rest| rest.strip_suffix(')'));
        let words = inner.unwrap_or(bare).split([',', '-', '_']);
        let numbers: Option<Vec<usize>> = words.map(|word| number(word.trim())).collect();
        match numbers.as_deref() {
            Some([v, o, l] | [v, o, 16, l]) => Ok(Set::new(*v, *o, *l)),
            Some([_, _, q, _]) => Err(format!("'{text}': only q = 16 is built, not {q}")),
            _ => Err(format!(
                "'{text}' is no set: write v,o,l as 24,5,4, or (24,5,16,4), or SNOVA_24_5_4"
            )),
        }
    }
}

/// Decimal digits alone: no sign, which `parse` would let pass.
fn number(word: &str) -> Option<usize> {
    if word.bytes().all(|byte| byte.is_ascii_digit()) { word.parse().ok() } else { None }
}
