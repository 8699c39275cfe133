//! Signing from one vinegar stream (Algorithm 15, one round of its loop).

use super::abq::{Term, abq_stream};
use super::blocks::{self, Corners};
use super::evaluate::private_change;
use super::keys;
use super::linear;
use super::matrix::Matrix;
use super::packing::{self, Elements};
use crate::answer::Answer;
use crate::lent::SigningStreams;
use crate::set::{SALT, Set};

/// Over buffers of the right lengths: 0 and the signature written, 2, or 21.
pub fn sign<const L: usize>(set: Set, streams: &SigningStreams, signature: &mut [u8]) -> Answer {
    let Some(terms) = abq_stream::<L>(set, streams.abq) else {
        return Answer::NOT_INVERTIBLE;
    };
    let t12 = blocks::private_stream(set, streams.private);
    let f = keys::expand_private(blocks::public_stream(set, streams.public), &t12);
    let vinegar = Elements::of(streams.vinegar).matrices(set.v);
    let target = Elements::of(streams.target).matrices(set.o);
    let Some(oil) = oil(set, &terms, &f, &vinegar, &target) else {
        return Answer::REDO;
    };
    // The change is its own inverse, so it also leads from X back to U.
    let u = private_change(&t12, &[vinegar, oil].concat());
    let (matrices, salt) = signature.split_at_mut(signature.len() - SALT);
    packing::write(u.iter().flat_map(Matrix::entries), matrices);
    salt.copy_from_slice(streams.salt);
    Answer::DONE
}

/// The one oil choice that makes the central map equal the target, or none: redo.
fn oil<const L: usize>(
    set: Set,
    terms: &[Vec<Term<L>>],
    f: &Corners<L>,
    vinegar: &[Matrix<L>],
    target: &[Matrix<L>],
) -> Option<Vec<Matrix<L>>> {
    let value = linear::vinegar_part(set, terms, f, vinegar);
    let part = linear::linear_part(set, terms, f, vinegar);
    let solution = linear::gauss(linear::augmented(part, target, &value))?;
    let block = |entries: &[u8]| Matrix::of(|r, c| entries[r * L + c]);
    Some(solution.chunks(L * L).map(block).collect())
}
