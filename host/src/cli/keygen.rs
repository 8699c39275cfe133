//! `snova keygen`: a key from streams or from seeds.

use super::args::{Args, Command, ENGINE, EXPANSION, OUT, opt};
use super::failure::{Failure, Given};
use super::{inputs, output};
use crate::answer::Answer;
use crate::lent::KeyStreams;
use crate::scheme::Scheme;
use crate::set::Set;

pub const COMMAND: Command = Command {
    name: "keygen",
    about: "the key P22, from two streams or from two seeds",
    usage: "SET --public BYTES --private BYTES [--engine NAME] [--out FILE]\n\
            SET --public-seed BYTES --private-seed BYTES [--expansion NAME] [--engine NAME] [--out FILE]",
    notes: "The key leaves out the public seed: the paper's public key is the seed and then this key.\n\
            example: snova keygen 1,1,2 --public hex:011000000000 --private hex:15",
    options: &[
        opt("--public", "BYTES", "the public stream"),
        opt("--private", "BYTES", "the private stream"),
        opt("--public-seed", "BYTES", "16 bytes"),
        opt("--private-seed", "BYTES", "32 bytes"),
        EXPANSION,
        ENGINE,
        OUT,
    ],
    run,
};

fn run(args: &Args) -> Result<Answer, Failure> {
    let set = args.only_set()?;
    let key = if inputs::by_streams(args) {
        from_streams(args, set)?
    } else {
        let seeds = inputs::seeds(args)?;
        let refused = |answer| Failure::answer(answer, set);
        let scheme = Scheme::new(set, args.expansion()?, args.engine()?).map_err(refused)?;
        scheme.keygen(&seeds).map_err(refused)?
    };
    output::write(args, &key)?;
    Ok(Answer::DONE)
}

fn from_streams(args: &Args, set: Set) -> Result<Vec<u8>, Failure> {
    let exact = set.lengths();
    let public = inputs::up_to(args, "--public", exact.map_or(0, |exact| exact.public))?;
    let private = inputs::up_to(args, "--private", exact.map_or(0, |exact| exact.private))?;
    let mut key = vec![0; exact.map_or(0, |exact| exact.key)];
    let streams = KeyStreams { public: &public, private: &private };
    let answer = args.engine()?.keygen(set, &streams, &mut key);
    if answer == Answer::DONE {
        return Ok(key);
    }
    let given = |refusal, argument, length, exact| Given { refusal, argument, length, exact };
    let given = exact.map(|exact| {
        [
            given(Answer::PUBLIC, "--public", public.length, exact.public),
            given(Answer::PRIVATE, "--private", private.length, exact.private),
        ]
    });
    Err(Failure::about(answer, set, given.as_ref().map_or(&[], |given| &given[..])))
}
