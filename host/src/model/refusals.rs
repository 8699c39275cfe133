//! Page 01's refusals by length: the lowest number that applies. Refusal 21 needs the ABQ
//! stream's contents and is found where the stream is read.

use crate::answer::Answer;
use crate::lent::{KeyStreams, SigningStreams, VerdictStreams};
use crate::set::{Lengths, SALT, Set};

pub fn of_keygen(set: Set, streams: &KeyStreams, output: usize) -> Option<Answer> {
    lowest(set, |exact| {
        vec![
            (Answer::PUBLIC, streams.public.len(), exact.public),
            (Answer::PRIVATE, streams.private.len(), exact.private),
            (Answer::OUTPUT, output, exact.key),
        ]
    })
}

pub fn of_signing(
    set: Set,
    streams: &SigningStreams,
    work: usize,
    output: usize,
) -> Option<Answer> {
    lowest(set, |exact| {
        vec![
            (Answer::PUBLIC, streams.public.len(), exact.public),
            (Answer::ABQ, streams.abq.len(), exact.abq),
            (Answer::PRIVATE, streams.private.len(), exact.private),
            (Answer::VINEGAR, streams.vinegar.len(), exact.vinegar),
            (Answer::TARGET, streams.target.len(), exact.target),
            (Answer::SALT, streams.salt.len(), SALT),
            (Answer::WORK, work, exact.work),
            (Answer::OUTPUT, output, exact.signature),
        ]
    })
}

pub fn of_verdict(set: Set, streams: &VerdictStreams) -> Option<Answer> {
    lowest(set, |exact| {
        vec![
            (Answer::PUBLIC, streams.public.len(), exact.public),
            (Answer::ABQ, streams.abq.len(), exact.abq),
            (Answer::TARGET, streams.target.len(), exact.target),
            (Answer::KEY, streams.key.len(), exact.key),
            (Answer::SIGNATURE, streams.signature.len(), exact.signature),
        ]
    })
}

pub fn of_salt(set: Set, signature: &[u8]) -> Option<Answer> {
    lowest(set, |exact| vec![(Answer::SIGNATURE, signature.len(), exact.signature)])
}

/// 10 for a set outside the limits; else the lowest number whose buffer has not its exact length.
fn lowest(set: Set, rules: impl Fn(Lengths) -> Vec<(Answer, usize, usize)>) -> Option<Answer> {
    let Some(exact) = set.lengths() else {
        return Some(Answer::SET);
    };
    let applies = |&(number, given, exact)| (given != exact).then_some(number);
    rules(exact).iter().filter_map(applies).min()
}
