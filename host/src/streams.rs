//! From seeds to page 01's streams, as the paper says. READINGS.md has what it leaves open.

use crate::hash::aes::Aes;
use crate::hash::shake::Shake256;
use crate::hash::snova_shake::snova_shake;
use crate::set::{Lengths, PRIVATE_SEED, PUBLIC_SEED, SALT, Set};
use std::fmt;
use std::str::FromStr;

/// The fixed string of Algorithm 7, for l up to 3. No zero byte follows it.
pub const ABQ_STRING: &[u8] = b"SNOVA_ABQ";

/// Bytes of a document's digest.
pub const DIGEST: usize = 64;

/// The function that expands the public seed.
#[derive(Clone, Copy, PartialEq, Eq, Debug)]
pub enum Expansion {
    /// AES128-CTR, the paper's default.
    Aes,
    /// SNOVA_SHAKE, its alternative.
    Shake,
}

/// The two streams that the public seed (or the fixed string) gives.
#[derive(Clone, PartialEq, Eq, Debug)]
pub struct PublicStreams {
    pub public: Vec<u8>,
    pub abq: Vec<u8>,
}

/// The public and the ABQ stream (Algorithm 7). For l = 4 the ABQ stream follows the public
/// stream in one run of the expansion; the public stream then ends on a whole byte.
pub fn public(
    set: Set,
    exact: &Lengths,
    seed: &[u8; PUBLIC_SEED],
    expansion: Expansion,
) -> PublicStreams {
    if set.l <= 3 {
        return PublicStreams {
            public: expansion.expand(seed, exact.public),
            abq: Shake256::hash(&[ABQ_STRING], exact.abq),
        };
    }
    let mut public = expansion.expand(seed, exact.public + exact.abq);
    let abq = public.split_off(exact.public);
    PublicStreams { public, abq }
}

/// The private stream (Algorithm 5).
pub fn private(exact: &Lengths, seed: &[u8; PRIVATE_SEED]) -> Vec<u8> {
    Shake256::hash(&[seed], exact.private)
}

/// The vinegar stream of one try (Algorithm 11). Tries count from 1.
pub fn vinegar(
    exact: &Lengths,
    seed: &[u8; PRIVATE_SEED],
    digest: &[u8],
    salt: &[u8; SALT],
    try_number: u8,
) -> Vec<u8> {
    Shake256::hash(&[seed, digest, salt, &[try_number]], exact.vinegar)
}

/// The target (Algorithm 14, line 2).
pub fn target(
    exact: &Lengths,
    seed: &[u8; PUBLIC_SEED],
    digest: &[u8],
    salt: &[u8; SALT],
) -> Vec<u8> {
    Shake256::hash(&[seed, digest, salt], exact.target)
}

/// The digest of a document.
pub fn digest(document: &[u8]) -> Vec<u8> {
    Shake256::hash(&[document], DIGEST)
}

impl Expansion {
    pub fn expand(self, seed: &[u8; PUBLIC_SEED], length: usize) -> Vec<u8> {
        match self {
            Expansion::Aes => Aes::new_128(seed).counter_stream(length),
            Expansion::Shake => snova_shake(seed, length),
        }
    }
}

impl fmt::Display for Expansion {
    fn fmt(&self, f: &mut fmt::Formatter) -> fmt::Result {
        f.write_str(match self {
            Expansion::Aes => "aes",
            Expansion::Shake => "shake",
        })
    }
}

impl FromStr for Expansion {
    type Err = String;

    fn from_str(text: &str) -> Result<Expansion, String> {
        match text {
            "aes" => Ok(Expansion::Aes),
            "shake" => Ok(Expansion::Shake),
            _ => Err(format!("'{text}' is neither aes nor shake")),
        }
    }
}
