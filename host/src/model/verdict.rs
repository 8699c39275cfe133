//! The verdict (Algorithm 17 without its first line, which is not for q = 16).

use super::abq::abq_stream;
use super::blocks;
use super::evaluate::public_map;
use super::packing::Elements;
use crate::answer::Answer;
use crate::lent::VerdictStreams;
use crate::set::Set;

/// Over buffers of the right lengths: 0 where the public map at the signature's matrices is the
/// target in every entry, else 1; or 21. The salt is not read.
pub fn verify<const L: usize>(set: Set, streams: &VerdictStreams) -> Answer {
    let Some(terms) = abq_stream::<L>(set, streams.abq) else {
        return Answer::NOT_INVERTIBLE;
    };
    let p = blocks::public_stream(set, streams.public);
    let p22 = blocks::key_stream(set, streams.key);
    let u = Elements::of(streams.signature).matrices(set.n());
    let target = Elements::of(streams.target).matrices(set.o);
    if public_map(set, &terms, &p, &p22, &u) == target {
        Answer::ACCEPTED
    } else {
        Answer::NOT_ACCEPTED
    }
}
