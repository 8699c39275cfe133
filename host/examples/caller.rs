//! A caller in Rust, by the safe functions over slices: the same steps and the same bytes as
//! `caller.c`. `cargo run --release --example caller`.
//!
//! Hashing is the caller's. Here the tests' small generator stands in for the hash: it is no source
//! of secrets. `snova_host::scheme` goes from seeds to signatures by the paper's hashes.

use snova_host::answer::Answer;
use snova_host::lent::{KeyStreams, SigningStreams, VerdictStreams};
use snova_host::library;
use snova_host::prng::Prng;
use snova_host::set::{SALT, Set};
use std::io::{self, Write};

/// All steps, told line by line. Answers that the example does not expect end it.
pub fn steps(out: &mut impl Write) -> io::Result<()> {
    let set = Set::new(24, 5, 4);
    let exact = library::lengths(set).expect("an allowed set");
    let mut hash = Prng::new(7);
    let public = hash.bytes(exact.public);
    let abq = hash.bytes(exact.abq);
    let private = hash.bytes(exact.private);
    let target = hash.bytes(exact.target);
    let salt = hash.bytes(SALT);
    let mut key = vec![0; exact.key];
    let mut work = vec![0; exact.work];
    let mut signature = vec![0; exact.signature];

    let streams = KeyStreams { public: &public, private: &private };
    let answer = library::keygen(set, &streams, &mut key);
    writeln!(out, "key: {}", answer.number())?;
    assert_eq!(answer, Answer::DONE);

    // The first vinegar is zero, which is always a redo: so the loop is seen to try again.
    let mut vinegar = vec![0; exact.vinegar];
    let mut tries = 0;
    let answer = loop {
        tries += 1;
        let streams = SigningStreams {
            public: &public,
            abq: &abq,
            private: &private,
            vinegar: &vinegar,
            target: &target,
            salt: &salt,
        };
        let answer = library::sign(set, &streams, &mut work, &mut signature);
        writeln!(out, "signing, try {tries}: {}", answer.number())?;
        if answer != Answer::REDO || tries == 255 {
            break answer;
        }
        vinegar = hash.bytes(exact.vinegar);
    };
    writeln!(out, "signature: {}", answer.number())?;
    assert_eq!(answer, Answer::DONE);

    writeln!(out, "salt: {}", library::salt_status(set, &signature).number())?;
    assert_eq!(library::salt(set, &signature), salt);
    let verdict = |signature: &[u8]| {
        let streams =
            VerdictStreams { public: &public, abq: &abq, target: &target, key: &key, signature };
        library::verify(set, &streams)
    };
    let answer = verdict(&signature);
    writeln!(out, "verdict: {}", answer.number())?;
    assert_eq!(answer, Answer::ACCEPTED);
    signature[0] ^= 1;
    let answer = verdict(&signature);
    writeln!(out, "verdict on one changed bit: {}", answer.number())?;
    assert_eq!(answer, Answer::NOT_ACCEPTED);
    let answer = verdict(&signature[..signature.len() - 1]);
    writeln!(out, "verdict on one byte less: {}", answer.number())?;
    assert_eq!(answer, Answer::SIGNATURE);
    Ok(())
}

#[allow(dead_code)]
fn main() -> io::Result<()> {
    steps(&mut io::stdout())
}
