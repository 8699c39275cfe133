//! The independent model: page 01, once more, in plain Rust.
//!
//! It shares no code with the proved library and is written from the page and the paper, so that
//! the two can be compared. It is literal: Algorithms 12 to 16 of the paper stand here loop by
//! loop, and key generation is the page's three products of block matrices. The functions of this
//! file take the same buffers as the library's; like these they are calls of their own, never
//! inlined, so that a profiler can count either side.

pub mod abq;
pub mod blocks;
pub mod evaluate;
pub mod field;
pub mod keys;
pub mod linear;
pub mod matrix;
pub mod packing;
pub mod refusals;
pub mod ring;
pub mod signing;
pub mod verdict;

use crate::answer::Answer;
use crate::lent::{KeyStreams, SigningStreams, VerdictStreams};
use crate::set::{SALT, Set};

pub use packing::{pack, unpack};

/// Key generation: writes P22 into `key`.
#[inline(never)]
pub fn keygen(set: Set, streams: &KeyStreams, key: &mut [u8]) -> Answer {
    if let Some(refusal) = refusals::of_keygen(set, streams, key.len()) {
        return refusal;
    }
    match set.l {
        2 => keys::generate::<2>(set, streams, key),
        3 => keys::generate::<3>(set, streams, key),
        _ => keys::generate::<4>(set, streams, key),
    }
    Answer::DONE
}

/// Signing from one vinegar stream: writes the signature, its salt included.
#[inline(never)]
pub fn sign(set: Set, streams: &SigningStreams, work: &mut [u8], signature: &mut [u8]) -> Answer {
    if let Some(refusal) = refusals::of_signing(set, streams, work.len(), signature.len()) {
        return refusal;
    }
    let answer = match set.l {
        2 => signing::sign::<2>(set, streams, signature),
        3 => signing::sign::<3>(set, streams, signature),
        _ => signing::sign::<4>(set, streams, signature),
    };
    // The model's own storage takes the work area's place; the promise about it is kept all the
    // same.
    if !answer.is_refusal() {
        work.fill(0);
    }
    answer
}

/// The verdict on a signature.
#[inline(never)]
pub fn verify(set: Set, streams: &VerdictStreams) -> Answer {
    if let Some(refusal) = refusals::of_verdict(set, streams) {
        return refusal;
    }
    match set.l {
        2 => verdict::verify::<2>(set, streams),
        3 => verdict::verify::<3>(set, streams),
        _ => verdict::verify::<4>(set, streams),
    }
}

/// Whether a signature has a salt to hand back: 0, 10 or 18.
pub fn salt_status(set: Set, signature: &[u8]) -> Answer {
    refusals::of_salt(set, signature).unwrap_or(Answer::DONE)
}

/// The salt: the signature's last sixteen bytes, or nothing where the status is a refusal.
pub fn salt(set: Set, signature: &[u8]) -> &[u8] {
    match salt_status(set, signature) {
        Answer::DONE => &signature[signature.len() - SALT..],
        _ => &[],
    }
}
