//! `snova streams`: one of page 01's streams, made from seeds.

use super::args::{Args, Command, EXPANSION, OUT, opt, read_set};
use super::failure::Failure;
use super::inputs;
use super::output::{self, Mode};
use crate::answer::Answer;
use crate::set::{Lengths, Set};
use crate::streams;

pub const COMMAND: Command = Command {
    name: "streams",
    about: "a stream made from seeds: public, abq, private, vinegar or target",
    usage: "SET public  --public-seed BYTES [--expansion NAME] [--out FILE]\n\
            SET abq     --public-seed BYTES [--expansion NAME] [--out FILE]\n\
            SET private --private-seed BYTES [--out FILE]\n\
            SET vinegar --private-seed BYTES (--document BYTES | --digest BYTES) --salt BYTES [--try NUMBER] [--out FILE]\n\
            SET target  --public-seed BYTES (--document BYTES | --digest BYTES) --salt BYTES [--out FILE]",
    notes: "For l up to 3 the ABQ stream is the same for every seed. The file of a private or vinegar stream can\n\
            be read by its owner alone.",
    options: &[
        opt("--public-seed", "BYTES", "16 bytes"),
        opt("--private-seed", "BYTES", "32 bytes"),
        opt("--document", "BYTES", "what is signed"),
        opt("--digest", "BYTES", "its digest, 64 bytes"),
        opt("--salt", "BYTES", "16 bytes"),
        opt("--try", "NUMBER", "1 to 255 (the default is 1)"),
        EXPANSION,
        OUT,
    ],
    run,
};

fn run(args: &Args) -> Result<Answer, Failure> {
    let [set, name] = args.plain() else {
        return Err(Failure::usage("a SET and the name of a stream must stand, no more"));
    };
    let set = read_set(set)?;
    let name = name.to_string_lossy();
    let exact = set.lengths().ok_or_else(|| Failure::answer(Answer::SET, set))?;
    let stream = stream(args, set, &exact, &name)?;
    let private = ["private", "vinegar"].contains(&&*name);
    output::write_as(args, &stream, if private { Mode::Private } else { Mode::Shared })?;
    Ok(Answer::DONE)
}

fn stream(args: &Args, set: Set, exact: &Lengths, name: &str) -> Result<Vec<u8>, Failure> {
    let public = || -> Result<streams::PublicStreams, Failure> {
        let seed = inputs::fixed(args, "--public-seed")?;
        Ok(streams::public(set, exact, &seed, args.expansion()?))
    };
    match name {
        "public" => Ok(public()?.public),
        "abq" => Ok(public()?.abq),
        "private" => Ok(streams::private(exact, &inputs::fixed(args, "--private-seed")?)),
        "vinegar" => {
            let seed = inputs::fixed(args, "--private-seed")?;
            let digest = inputs::digest(args)?;
            let salt = inputs::salt(args, set)?;
            Ok(streams::vinegar(exact, &seed, &digest, &salt, try_number(args)?))
        }
        "target" => {
            let seed = inputs::fixed(args, "--public-seed")?;
            let digest = inputs::digest(args)?;
            Ok(streams::target(exact, &seed, &digest, &inputs::salt(args, set)?))
        }
        _ => Err(Failure::usage(format!("'{name}' is no stream; snova streams --help lists them"))),
    }
}

fn try_number(args: &Args) -> Result<u8, Failure> {
    match args.parsed("--try", 1)? {
        0 => Err(Failure::usage("--try 0: tries count from 1")),
        number => Ok(number),
    }
}
