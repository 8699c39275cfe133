//! `snova pack` and `snova unpack`: elements, two to a byte.

use super::args::{Args, Command, ENGINE, OUT, opt};
use super::failure::Failure;
use super::{inputs, output};
use crate::answer::Answer;
use crate::set::bytes_of;

pub const PACK: Command = Command {
    name: "pack",
    about: "elements, a byte each, packed two to a byte",
    usage: "--elements BYTES [--engine NAME] [--out FILE]",
    notes: "The low half of a byte is the earlier element; of an odd count the last high half is zero.\n\
            example: snova pack --elements hex:0A0207",
    options: &[opt("--elements", "BYTES", "the elements, 0 to 15, a byte each"), ENGINE, OUT],
    run: pack,
};

pub const UNPACK: Command = Command {
    name: "unpack",
    about: "packed elements, a byte each",
    usage: "--packed BYTES [--count NUMBER] [--engine NAME] [--out FILE]",
    notes: "example: snova unpack --packed hex:2AF7 --count 3",
    options: &[
        opt("--packed", "BYTES", "the packed elements"),
        opt("--count", "NUMBER", "of elements (the default is two for each byte)"),
        ENGINE,
        OUT,
    ],
    run: unpack,
};

fn pack(args: &Args) -> Result<Answer, Failure> {
    no_words(args)?;
    let elements = inputs::bytes(args, "--elements")?;
    let mut bytes = vec![0; bytes_of(elements.len())];
    match args.engine()?.pack(&elements, &mut bytes) {
        Answer::DONE => output::write(args, &bytes)?,
        answer => return Err(refused(answer)),
    }
    Ok(Answer::DONE)
}

fn unpack(args: &Args) -> Result<Answer, Failure> {
    no_words(args)?;
    let bytes = inputs::bytes(args, "--packed")?;
    let count = args.parsed("--count", 2 * bytes.len())?;
    // More than two to a byte do not fit: one past that is refused as any further one would be.
    let mut elements = vec![0; count.min(2 * bytes.len() + 1)];
    match args.engine()?.unpack(&bytes, &mut elements) {
        Answer::DONE => output::write(args, &elements)?,
        answer => return Err(refused(answer)),
    }
    Ok(Answer::DONE)
}

fn no_words(args: &Args) -> Result<(), Failure> {
    match args.plain() {
        [] => Ok(()),
        [word, ..] => Err(Failure::usage(format!("'{}' is one word too many", word.display()))),
    }
}

fn refused(answer: Answer) -> Failure {
    Failure { status: answer.number() as i32, text: format!("refused with {answer}") }
}
