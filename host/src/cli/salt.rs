//! `snova salt`: the salt of a signature.

use super::args::{Args, Command, ENGINE, OUT, opt};
use super::failure::{Failure, Given};
use super::{inputs, output};
use crate::answer::Answer;

pub const COMMAND: Command = Command {
    name: "salt",
    about: "the salt of a signature: its last sixteen bytes",
    usage: "SET --signature BYTES [--engine NAME] [--out FILE]",
    notes: "",
    options: &[opt("--signature", "BYTES", "the signature, with its salt"), ENGINE, OUT],
    run,
};

fn run(args: &Args) -> Result<Answer, Failure> {
    let set = args.only_set()?;
    let exact = set.lengths().map_or(0, |exact| exact.signature);
    let signature = inputs::up_to(args, "--signature", exact)?;
    let engine = args.engine()?;
    let answer = engine.salt_status(set, &signature);
    if answer != Answer::DONE {
        let given = Given {
            refusal: Answer::SIGNATURE,
            argument: "--signature",
            length: signature.length,
            exact,
        };
        return Err(Failure::about(answer, set, &[given]));
    }
    output::write(args, engine.salt(set, &signature))?;
    Ok(Answer::DONE)
}
