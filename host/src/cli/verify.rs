//! `snova verify`: the verdict, from streams, from a public key and a document, or on a signed message.

use super::args::{Args, Command, ENGINE, EXPANSION, JSON, opt};
use super::failure::{Failure, Given, Length};
use super::inputs::{self, Bytes};
use super::output::{self, Draft, Mode};
use crate::answer::Answer;
use crate::lent::VerdictStreams;
use crate::scheme::Scheme;
use crate::set::{Lengths, PUBLIC_SEED, Set};

pub const COMMAND: Command = Command {
    name: "verify",
    about: "the verdict on a signature: exit status 0 accepted, 1 not accepted",
    usage: "SET --pk BYTES (--document BYTES | --digest BYTES) --signature BYTES [--json] [--expansion NAME] [--engine NAME]\n\
            SET --pk BYTES --attached BYTES [--out FILE] [--json] [--expansion NAME] [--engine NAME]\n\
            SET --public-seed BYTES --key BYTES (--document BYTES | --digest BYTES) --signature BYTES [--json] [--expansion NAME] [--engine NAME]\n\
            SET --public BYTES --abq BYTES --target BYTES --key BYTES --signature BYTES [--json] [--engine NAME]",
    notes: "With streams the salt is not read: the target was hashed from it. With a seed the salt comes\n\
            out of the signature. Of a signed message --out gets the document, where it is accepted.\n\
            example: snova verify 24,5,4 --pk my.pk --document letter --signature letter.sig",
    options: &[
        opt("--pk", "BYTES", "the public key: the public seed, then the key P22"),
        opt("--attached", "BYTES", "the signed message: the signature, then the document"),
        opt("--public", "BYTES", "the public stream"),
        opt("--abq", "BYTES", "the ABQ stream"),
        opt("--target", "BYTES", "the target"),
        opt("--public-seed", "BYTES", "16 bytes"),
        opt("--document", "BYTES", "what was signed"),
        opt("--digest", "BYTES", "its digest, 64 bytes"),
        opt("--key", "BYTES", "the key P22, without the public seed"),
        opt("--signature", "BYTES", "the signature, with its salt"),
        opt(
            "--out",
            "FILE",
            "write the document of an accepted signed message there; - is standard output",
        ),
        JSON,
        EXPANSION,
        ENGINE,
    ],
    run,
};

fn run(args: &Args) -> Result<Answer, Failure> {
    let set = args.only_set()?;
    let outcome = if args.flag("--attached") {
        attached(args, set)
    } else if inputs::by_streams(args) {
        from_streams(args, set)
    } else {
        from_seed(args, set)
    };
    told(args, set, outcome)
}

/// The verdict in words, or as JSON, which tells a refusal too. Where the document itself goes to
/// standard output, the words go to standard error.
fn told(args: &Args, set: Set, outcome: Result<Answer, Failure>) -> Result<Answer, Failure> {
    let number = match &outcome {
        Ok(answer) => answer.number(),
        Err(failure) if Answer(failure.status as u32).is_refusal() => failure.status as u32,
        Err(_) => return outcome,
    };
    let accepted = number == 0;
    let text = if args.flag("--json") {
        let meaning = match number {
            0 => "accepted",
            number => Answer(number).meaning(),
        };
        let Set { v, o, l } = set;
        format!(
            "{{\"v\":{v},\"o\":{o},\"l\":{l},\"accepted\":{accepted},\"answer\":{number},\"meaning\":\"{meaning}\"}}"
        )
    } else if outcome.is_err() {
        return outcome;
    } else {
        String::from(if accepted { "accepted" } else { "not accepted" })
    };
    if args.option("--out").is_some_and(|path| path == "-") {
        output::tell(&text);
    } else {
        output::print(&(text + "\n"))?;
    }
    outcome
}

/// The arguments of a verdict whose lengths can be refused.
type Lent<'a> = [(Answer, &'static str, &'a Bytes, fn(&Lengths) -> usize)];

/// The exact length of a buffer, or none where the set has none.
fn exact(set: Set, length: fn(&Lengths) -> usize) -> usize {
    set.lengths().as_ref().map_or(0, length)
}

fn from_streams(args: &Args, set: Set) -> Result<Answer, Failure> {
    let read = |name: &str, length| inputs::up_to(args, name, exact(set, length));
    let public = read("--public", |exact| exact.public)?;
    let abq = read("--abq", |exact| exact.abq)?;
    let target = read("--target", |exact| exact.target)?;
    let key = read("--key", |exact| exact.key)?;
    let signature = read("--signature", |exact| exact.signature)?;
    let streams = VerdictStreams {
        public: &public,
        abq: &abq,
        target: &target,
        key: &key,
        signature: &signature,
    };
    let lent: &Lent = &[
        (Answer::PUBLIC, "--public", &public, |exact| exact.public),
        (Answer::ABQ, "--abq", &abq, |exact| exact.abq),
        (Answer::TARGET, "--target", &target, |exact| exact.target),
        (Answer::KEY, "--key", &key, |exact| exact.key),
        (Answer::SIGNATURE, "--signature", &signature, |exact| exact.signature),
    ];
    verdict(args.engine()?.verify(set, &streams), set, lent)
}

/// The public seed and the key, by the argument that has them.
struct Public {
    seed: [u8; PUBLIC_SEED],
    argument: &'static str,
    key: Vec<u8>,
    length: Length,
    before: usize,
}

fn public(args: &Args, set: Set) -> Result<Public, Failure> {
    let key = exact(set, |exact| exact.key);
    if !args.flag("--pk") {
        let seed = inputs::fixed(args, "--public-seed")?;
        let found = inputs::up_to(args, "--key", key)?;
        let (length, key) = (found.length, found.to_vec());
        return Ok(Public { seed, argument: "--key", key, length, before: 0 });
    }
    let found = inputs::up_to(args, "--pk", PUBLIC_SEED + key)?;
    let length = found.length;
    // A key that is shorter than its seed is a key of another length.
    let mut seed = [0; PUBLIC_SEED];
    let cut = found.len().min(PUBLIC_SEED);
    seed[..cut].copy_from_slice(&found[..cut]);
    let short = found.len() < PUBLIC_SEED;
    let key = if short { vec![0; key + 1] } else { found[PUBLIC_SEED..].to_vec() };
    Ok(Public { seed, argument: "--pk", key, length, before: PUBLIC_SEED })
}

impl Public {
    /// A verdict, or its refusal told with the argument that it is about.
    fn verdict(
        &self,
        scheme: &Scheme,
        digest: &[u8],
        signature: &[u8],
        told: (&'static str, Length),
    ) -> Result<Answer, Failure> {
        let answer = scheme.verify(&self.seed, &self.key, digest, signature);
        if !answer.is_refusal() {
            return Ok(answer);
        }
        let Scheme { set, exact, .. } = scheme;
        let given = |refusal, argument, length, exact| Given { refusal, argument, length, exact };
        let key = given(Answer::KEY, self.argument, self.length, self.before + exact.key);
        let signature = given(Answer::SIGNATURE, told.0, told.1, exact.signature);
        Err(Failure::about(answer, *set, &[key, signature]))
    }
}

fn scheme(args: &Args, set: Set) -> Result<Scheme, Failure> {
    let scheme = Scheme::new(set, args.expansion()?, args.engine()?);
    scheme.map_err(|answer| Failure::answer(answer, set))
}

fn from_seed(args: &Args, set: Set) -> Result<Answer, Failure> {
    let public = public(args, set)?;
    let signature = inputs::up_to(args, "--signature", exact(set, |exact| exact.signature))?;
    let scheme = scheme(args, set)?;
    let digest = inputs::digest(args)?;
    public.verdict(&scheme, &digest, &signature, ("--signature", signature.length))
}

/// A signed message: the signature first, and the rest is the document. It is copied to `--out`
/// while it is hashed, and kept only where it is accepted.
fn attached(args: &Args, set: Set) -> Result<Answer, Failure> {
    let public = public(args, set)?;
    let scheme = scheme(args, set)?;
    let mut message = inputs::open("--attached", args.required("--attached")?)?;
    let signature = message.next(scheme.exact.signature)?;
    let mut draft = match args.option("--out") {
        Some(path) => Some(Draft::new("--out", path, Mode::Shared)?),
        None => None,
    };
    let digest = message.digest(|piece| match &mut draft {
        Some(draft) => draft.add(piece),
        None => Ok(()),
    })?;
    let told = ("--attached", Length::Exactly(signature.len()));
    let answer = public.verdict(&scheme, &digest, &signature, told)?;
    match draft {
        Some(draft) if answer == Answer::ACCEPTED => draft.keep()?,
        _ => {}
    }
    Ok(answer)
}

/// A verdict is handed on; a refusal is told with the argument that it is about.
fn verdict(answer: Answer, set: Set, lent: &Lent) -> Result<Answer, Failure> {
    if !answer.is_refusal() {
        return Ok(answer);
    }
    let given: Vec<Given> = lent
        .iter()
        .map(|(refusal, argument, bytes, length)| Given {
            refusal: *refusal,
            argument,
            length: bytes.length,
            exact: exact(set, *length),
        })
        .collect();
    Err(Failure::about(answer, set, &given))
}
