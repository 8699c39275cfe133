//! `snova keypair`: a public and a secret key from the system's generator.

use super::args::{Args, Command, ENGINE, EXPANSION, opt};
use super::failure::Failure;
use super::inputs;
use super::output::{self, Draft, Mode};
use crate::answer::Answer;
use crate::scheme::{Scheme, Seeds};

pub const COMMAND: Command = Command {
    name: "keypair",
    about: "a key pair: two seeds from the system's generator, and the key that they give",
    usage: "SET --pk FILE --sk FILE [--force] [--expansion NAME] [--engine NAME]",
    notes: "The public key is the public seed, 16 bytes, and then the key P22. The secret key is the two seeds,\n\
            48 bytes; its file can be read by its owner alone. Both are those of the response files.\n\
            example: snova keypair 24,5,4 --pk my.pk --sk my.sk",
    options: &[
        opt("--pk", "FILE", "where the public key is written"),
        opt("--sk", "FILE", "where the secret key is written"),
        opt("--force", "", "write over files that are there"),
        EXPANSION,
        ENGINE,
    ],
    run,
};

fn run(args: &Args) -> Result<Answer, Failure> {
    let set = args.only_set()?;
    let refused = |answer| Failure::answer(answer, set);
    let scheme = Scheme::new(set, args.expansion()?, args.engine()?).map_err(refused)?;
    let (pk, sk) = (args.required("--pk")?, args.required("--sk")?);
    output::absent("--pk", pk, args.flag("--force"))?;
    output::absent("--sk", sk, args.flag("--force"))?;
    let seeds = Seeds::from_bytes(&inputs::random("the seeds")?);
    let key = scheme.keygen(&seeds).map_err(refused)?;
    // Both are whole before either takes its name.
    let mut secret = Draft::new("--sk", sk, Mode::Private)?;
    secret.add(&seeds.to_bytes())?;
    let mut public = Draft::new("--pk", pk, Mode::Shared)?;
    public.add(&[&seeds.public[..], &key].concat())?;
    secret.keep()?;
    public.keep()?;
    Ok(Answer::DONE)
}
