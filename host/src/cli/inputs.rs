//! Bytes that are named on the command line: a file, hexadecimal, zeros, or standard input.
//!
//! What has an exact length is read at most one byte past it: a longer file is refused in constant
//! memory. A document is hashed as it is read.

use super::args::Args;
use super::failure::{Failure, Length};
use super::progress::Progress;
use crate::hash::shake::Shake256;
use crate::hex;
use crate::scheme::Seeds;
use crate::set::{SALT, Set};
use crate::streams::DIGEST;
use std::ffi::OsStr;
use std::fs::File;
use std::io::{ErrorKind, Read};
use std::ops::Deref;
use std::os::unix::ffi::OsStrExt;

/// The most that `zeros:` gives, and the most that is read of what has no exact length: longer than
/// any stream of any set.
const MOST: usize = 1 << 24;

/// From here on a document is large enough for a line of progress.
const LARGE: u64 = 1 << 26;

/// What was read: at most one byte more than was asked for, and how long the whole is.
pub struct Bytes {
    bytes: Vec<u8>,
    pub length: Length,
}

impl Deref for Bytes {
    type Target = [u8];

    fn deref(&self) -> &[u8] {
        &self.bytes
    }
}

/// The bytes of an option that must be there.
pub fn bytes(args: &Args, name: &str) -> Result<Vec<u8>, Failure> {
    read(name, args.required(name)?, MOST)
}

/// The bytes of an option that must be there and has an exact length.
pub fn up_to(args: &Args, name: &str, exact: usize) -> Result<Bytes, Failure> {
    let mut source = open(name, args.required(name)?)?;
    source.up_to(exact)
}

/// The bytes that a word names: all of them, or a failure where they are more than `most`.
pub fn read(name: &str, value: &OsStr, most: usize) -> Result<Vec<u8>, Failure> {
    let found = open(name, value)?.up_to(most)?;
    if found.len() > most {
        return Err(Failure::file(format!("{name} has {}, and {most} are the most", found.length)));
    }
    Ok(found.bytes)
}

/// Where bytes come from: what is read next, how many there are in all where that is known.
pub struct Source {
    name: String,
    shown: String,
    from: Box<dyn Read>,
    pub length: Option<u64>,
}

/// The source that a word names.
pub fn open(name: &str, value: &OsStr) -> Result<Source, Failure> {
    let source = |from: Box<dyn Read>, length| Source {
        name: name.to_string(),
        shown: value.display().to_string(),
        from,
        length,
    };
    let word = value.as_bytes();
    if let Some(digits) = word.strip_prefix(b"hex:") {
        let bytes = hex::decode(&String::from_utf8_lossy(digits))
            .map_err(|fault| Failure::usage(format!("{name}: {fault}")))?;
        let length = bytes.len() as u64;
        return Ok(source(Box::new(std::io::Cursor::new(bytes)), Some(length)));
    }
    if let Some(count) = word.strip_prefix(b"zeros:") {
        let count = String::from_utf8_lossy(count);
        return match count.parse() {
            Ok(count) if count <= MOST as u64 => {
                Ok(source(Box::new(std::io::repeat(0).take(count)), Some(count)))
            }
            _ => Err(Failure::usage(format!("{name}: '{count}' is no count up to {MOST}"))),
        };
    }
    if word == b"-" {
        return Ok(source(Box::new(std::io::stdin()), None));
    }
    let shown = value.display();
    let file = File::open(value)
        .map_err(|error| Failure::file(format!("{name}: cannot read '{shown}': {error}")))?;
    let length = match file.metadata() {
        Ok(data) if data.is_file() => Some(data.len()),
        _ => None,
    };
    Ok(source(Box::new(file), length))
}

impl Source {
    fn failed(&self, error: std::io::Error) -> Failure {
        Failure::file(format!("{}: cannot read '{}': {error}", self.name, self.shown))
    }

    /// The next bytes, at most one more than `exact`.
    pub fn up_to(&mut self, exact: usize) -> Result<Bytes, Failure> {
        let mut bytes = Vec::new();
        let read = (&mut self.from).take(exact as u64 + 1).read_to_end(&mut bytes);
        read.map_err(|error| self.failed(error))?;
        let length = match self.length {
            _ if bytes.len() <= exact => Length::Exactly(bytes.len()),
            Some(length) => Length::Exactly(length as usize),
            None => Length::MoreThan(exact),
        };
        Ok(Bytes { bytes, length })
    }

    /// The next bytes, exactly so many, or fewer where there are no more.
    pub fn next(&mut self, count: usize) -> Result<Vec<u8>, Failure> {
        let mut bytes = Vec::new();
        let read = (&mut self.from).take(count as u64).read_to_end(&mut bytes);
        read.map_err(|error| self.failed(error))?;
        Ok(bytes)
    }

    /// The digest of what is left, piece by piece; each piece is handed to `copy` too.
    pub fn digest(
        &mut self,
        mut copy: impl FnMut(&[u8]) -> Result<(), Failure>,
    ) -> Result<Vec<u8>, Failure> {
        let mut sponge = Shake256::default();
        let mut buffer = vec![0; 1 << 17];
        let mut progress = Progress::new();
        let mut done: u64 = 0;
        loop {
            let count = match self.from.read(&mut buffer) {
                Ok(0) => break,
                Ok(count) => count,
                Err(error) if error.kind() == ErrorKind::Interrupted => continue,
                Err(error) => return Err(self.failed(error)),
            };
            sponge.absorb(&buffer[..count]);
            copy(&buffer[..count])?;
            done += count as u64;
            if done >= LARGE && done >> 22 != (done - count as u64) >> 22 {
                let all = self.length.map_or(String::new(), |all| format!(" of {}", all >> 20));
                progress.say(&format!("snova: {}: {}{all} MiB hashed", self.name, done >> 20));
            }
        }
        let mut digest = vec![0; DIGEST];
        sponge.squeeze(&mut digest);
        Ok(digest)
    }
}

/// The bytes of an option that have one length for every set, as seeds have.
pub fn fixed<const N: usize>(args: &Args, name: &str) -> Result<[u8; N], Failure> {
    let found = up_to(args, name, N)?;
    let length = found.length;
    found
        .bytes
        .try_into()
        .map_err(|_| Failure::usage(format!("{name} has {length} and must have {N}")))
}

pub fn seeds(args: &Args) -> Result<Seeds, Failure> {
    if args.flag("--sk") {
        return Ok(Seeds::from_bytes(&fixed(args, "--sk")?));
    }
    Ok(Seeds { public: fixed(args, "--public-seed")?, private: fixed(args, "--private-seed")? })
}

/// The digest: as given, or that of the document.
pub fn digest(args: &Args) -> Result<Vec<u8>, Failure> {
    match args.option("--digest") {
        Some(_) => Ok(fixed::<DIGEST>(args, "--digest")?.to_vec()),
        None => open("--document", args.required("--document")?)?.digest(|_| Ok(())),
    }
}

/// The salt as given. One that is not 16 bytes has page 01's number.
pub fn salt(args: &Args, set: Set) -> Result<[u8; SALT], Failure> {
    let found = up_to(args, "--salt", SALT)?;
    let length = found.length;
    found.bytes.try_into().map_err(|_| Failure::salt(set, length))
}

/// Bytes from the system's generator.
pub fn random<const N: usize>(name: &str) -> Result<[u8; N], Failure> {
    let mut bytes = [0; N];
    File::open("/dev/urandom")
        .and_then(|mut source| source.read_exact(&mut bytes))
        .map_err(|error| Failure::file(format!("{name}: cannot choose one: {error}")))?;
    Ok(bytes)
}

/// Whether the streams are given, and not the seeds that make them: the form of the call says which.
pub fn by_streams(args: &Args) -> bool {
    args.flag("--public")
}
