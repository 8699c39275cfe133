//! `snova sign`: a signature from streams (one try) or from seeds (as many tries as it takes).

use super::args::{Args, Command, ENGINE, EXPANSION, OUT, opt};
use super::failure::{Failure, Given};
use super::inputs::{self, Bytes};
use super::output::{self, Draft, Mode};
use crate::answer::Answer;
use crate::lent::SigningStreams;
use crate::scheme::{Scheme, Seeds};
use crate::set::{Lengths, SALT, Set};
use std::ffi::OsStr;

pub const COMMAND: Command = Command {
    name: "sign",
    about: "a signature, from streams or from two seeds and a document",
    usage: "SET --sk BYTES (--document BYTES | --digest BYTES) [--salt BYTES] [--expansion NAME] [--engine NAME] [--out FILE]\n\
            SET --sk BYTES --document BYTES --attached [--salt BYTES] [--expansion NAME] [--engine NAME] [--out FILE]\n\
            SET --public-seed BYTES --private-seed BYTES (--document BYTES | --digest BYTES) [--salt BYTES] [--expansion NAME] [--engine NAME] [--out FILE]\n\
            SET --public BYTES --abq BYTES --private BYTES --vinegar BYTES --target BYTES --salt BYTES [--engine NAME] [--out FILE]",
    notes: "With streams there is one try, which may answer 2 (redo). With seeds the try number goes up\n\
            from 1; without --salt the system chooses one. --digest stands for --document where the\n\
            digest is known. --attached writes the signature and then the document: a signed message.\n\
            example: snova sign 24,5,4 --sk my.sk --document letter --out letter.sig",
    options: &[
        opt("--sk", "BYTES", "the secret key: public seed and private seed, 48 bytes"),
        opt("--attached", "", "write a signed message: the signature, then the document"),
        opt("--public", "BYTES", "the public stream"),
        opt("--abq", "BYTES", "the ABQ stream"),
        opt("--private", "BYTES", "the private stream"),
        opt("--vinegar", "BYTES", "the vinegar stream"),
        opt("--target", "BYTES", "the target"),
        opt("--salt", "BYTES", "16 bytes"),
        opt("--public-seed", "BYTES", "16 bytes"),
        opt("--private-seed", "BYTES", "32 bytes"),
        opt("--document", "BYTES", "what is signed"),
        opt("--digest", "BYTES", "its digest, 64 bytes"),
        EXPANSION,
        ENGINE,
        OUT,
    ],
    run,
};

fn run(args: &Args) -> Result<Answer, Failure> {
    let set = args.only_set()?;
    if args.flag("--attached") {
        return attached(args, set);
    }
    let signature =
        if inputs::by_streams(args) { from_streams(args, set)? } else { from_seeds(args, set)? };
    output::write(args, &signature)?;
    Ok(Answer::DONE)
}

/// What signs a digest: the seeds, the scheme and the salt.
struct Signer {
    seeds: Seeds,
    scheme: Scheme,
    salt: [u8; SALT],
}

impl Signer {
    fn new(args: &Args, set: Set) -> Result<Signer, Failure> {
        let seeds = inputs::seeds(args)?;
        let scheme = Scheme::new(set, args.expansion()?, args.engine()?);
        let scheme = scheme.map_err(|answer| Failure::answer(answer, set))?;
        let given = args.flag("--salt");
        let salt = if given { inputs::salt(args, set)? } else { inputs::random("--salt")? };
        Ok(Signer { seeds, scheme, salt })
    }

    fn sign(&self, digest: &[u8]) -> Result<Vec<u8>, Failure> {
        let signed = self.scheme.sign(&self.seeds, digest, &self.salt);
        let signed = signed.map_err(|answer| Failure::answer(answer, self.scheme.set))?;
        if signed.tries > 1 {
            let tries = signed.tries;
            output::tell(&format!(
                "snova sign: try {tries} gave the signature, the ones before it redo"
            ));
        }
        Ok(signed.signature)
    }
}

fn from_seeds(args: &Args, set: Set) -> Result<Vec<u8>, Failure> {
    let signer = Signer::new(args, set)?;
    signer.sign(&inputs::digest(args)?)
}

/// The signed message: the document is copied while it is hashed, and the signature is put before
/// it once it is known.
fn attached(args: &Args, set: Set) -> Result<Answer, Failure> {
    let signer = Signer::new(args, set)?;
    let path = args.option("--out").unwrap_or(OsStr::new("-"));
    let mut draft = Draft::new("--out", path, Mode::Shared)?;
    draft.add(&vec![0; signer.scheme.exact.signature])?;
    let mut document = inputs::open("--document", args.required("--document")?)?;
    let digest = document.digest(|piece| draft.add(piece))?;
    draft.write_head(&signer.sign(&digest)?)?;
    draft.keep()?;
    Ok(Answer::DONE)
}

fn from_streams(args: &Args, set: Set) -> Result<Vec<u8>, Failure> {
    let exact = set.lengths();
    let read = |name: &str, length: fn(&Lengths) -> usize| {
        inputs::up_to(args, name, exact.as_ref().map_or(0, length))
    };
    let public = read("--public", |exact| exact.public)?;
    let abq = read("--abq", |exact| exact.abq)?;
    let private = read("--private", |exact| exact.private)?;
    let vinegar = read("--vinegar", |exact| exact.vinegar)?;
    let target = read("--target", |exact| exact.target)?;
    let salt = read("--salt", |_| SALT)?;
    let streams = SigningStreams {
        public: &public,
        abq: &abq,
        private: &private,
        vinegar: &vinegar,
        target: &target,
        salt: &salt,
    };
    let mut work = vec![0; exact.map_or(0, |exact| exact.work)];
    let mut signature = vec![0; exact.map_or(0, |exact| exact.signature)];
    match args.engine()?.sign(set, &streams, &mut work, &mut signature) {
        Answer::DONE => Ok(signature),
        Answer::REDO => {
            let text = format!("answers {} with this --vinegar", Answer::REDO);
            Err(Failure { text, ..Failure::answer(Answer::REDO, set) })
        }
        answer => {
            let given = |refusal, argument, bytes: &Bytes, exact| Given {
                refusal,
                argument,
                length: bytes.length,
                exact,
            };
            let given = exact.map(|exact| {
                [
                    given(Answer::PUBLIC, "--public", &public, exact.public),
                    given(Answer::ABQ, "--abq", &abq, exact.abq),
                    given(Answer::PRIVATE, "--private", &private, exact.private),
                    given(Answer::VINEGAR, "--vinegar", &vinegar, exact.vinegar),
                    given(Answer::TARGET, "--target", &target, exact.target),
                    given(Answer::SALT, "--salt", &salt, SALT),
                ]
            });
            Err(Failure::about(answer, set, given.as_ref().map_or(&[], |given| &given[..])))
        }
    }
}
