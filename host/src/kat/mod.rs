//! Known-answer files (`PQCsignKAT_*.rsp`) of NIST's call: reading, writing, checking.

mod check;
mod make;
mod read;
mod write;

pub use check::{Mismatch, check, identify};
pub use make::{file_name, make, title};
pub use read::{Refused, read};
pub use write::write;

/// One entry of a response file.
#[derive(Clone, PartialEq, Eq, Debug, Default)]
pub struct Entry {
    pub count: u32,
    pub seed: Vec<u8>,
    pub mlen: u32,
    pub msg: Vec<u8>,
    pub pk: Vec<u8>,
    pub sk: Vec<u8>,
    pub smlen: u32,
    pub sm: Vec<u8>,
}

/// The fields in the order of the file.
pub const FIELDS: [&str; 8] = ["count", "seed", "mlen", "msg", "pk", "sk", "smlen", "sm"];
