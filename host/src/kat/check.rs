//! Checks entries step by step, so that a disagreement names the first reading that fails.

use super::Entry;
use crate::answer::Answer;
use crate::engine::Engine;
use crate::hash::drbg::{Drbg, SEED};
use crate::scheme::{Scheme, Seeds};
use crate::set::{PUBLIC_SEED, ROUND_2, SALT, Set};
use crate::streams::{self, Expansion};
use std::fmt;

/// The first step at which an entry and the host disagree. READINGS.md says what each decides.
#[derive(Clone, PartialEq, Eq, Debug)]
pub struct Mismatch {
    pub count: u32,
    pub step: &'static str,
    pub text: String,
}

impl fmt::Display for Mismatch {
    fn fmt(&self, f: &mut fmt::Formatter) -> fmt::Result {
        write!(f, "entry {}: {}: {}", self.count, self.step, self.text)
    }
}

/// The set whose lengths an entry has, among the nine.
fn set_of(entry: &Entry) -> Option<Set> {
    let signature = entry.sm.len().checked_sub(entry.msg.len())?;
    let fits = |set: &Set| {
        set.lengths().is_some_and(|exact| {
            entry.pk.len() == PUBLIC_SEED + exact.key && signature == exact.signature
        })
    };
    ROUND_2.into_iter().find(fits)
}

/// The set of a file by the lengths of its first entry, and the expansion that gives its key. If
/// neither gives it, the paper's default, so that a check says where that fails.
pub fn identify(entries: &[Entry], engine: Engine) -> Result<Scheme, String> {
    let first = entries.first().ok_or("the file has no entry")?;
    let set = set_of(first).ok_or_else(|| {
        format!(
            "no set of the nine has a public key of {} bytes and a signature of {} bytes",
            first.pk.len(),
            first.sm.len() as i64 - first.msg.len() as i64
        )
    })?;
    let scheme = |expansion| {
        Scheme::new(set, expansion, engine).map_err(|answer| format!("set {set}: {answer}"))
    };
    let shake = scheme(Expansion::Shake)?;
    let seeds = entry_seeds(first).map(|(seeds, _)| seeds);
    let by_shake = seeds.is_ok_and(|seeds| check_public_key(&shake, first, &seeds).is_ok());
    if by_shake { Ok(shake) } else { scheme(Expansion::Aes) }
}

/// Checks one entry against what its seed gives.
pub fn check(scheme: &Scheme, entry: &Entry) -> Result<(), Mismatch> {
    check_lengths(entry)?;
    let (seeds, salt) = entry_seeds(entry)?;
    check_public_key(scheme, entry, &seeds)?;
    check_secret_key(entry, &seeds)?;
    check_signature(scheme, entry, &seeds, &salt)
}

fn mismatch(entry: &Entry, step: &'static str, text: impl Into<String>) -> Mismatch {
    Mismatch { count: entry.count, step, text: text.into() }
}

fn check_lengths(entry: &Entry) -> Result<(), Mismatch> {
    if entry.mlen as usize != entry.msg.len() {
        return Err(mismatch(entry, "mlen", format!("msg has {} bytes", entry.msg.len())));
    }
    if entry.smlen as usize != entry.sm.len() {
        return Err(mismatch(entry, "smlen", format!("sm has {} bytes", entry.sm.len())));
    }
    Ok(())
}

/// What the entry's generator gives: the two seeds first, then the salt.
fn entry_seeds(entry: &Entry) -> Result<(Seeds, [u8; SALT]), Mismatch> {
    let seed: &[u8; SEED] = entry.seed[..]
        .try_into()
        .map_err(|_| mismatch(entry, "seed", format!("{} bytes, not {SEED}", entry.seed.len())))?;
    let mut drbg = Drbg::new(seed);
    let seeds = Seeds::from_bytes(&drbg.bytes());
    Ok((seeds, drbg.bytes()))
}

fn check_public_key(scheme: &Scheme, entry: &Entry, seeds: &Seeds) -> Result<(), Mismatch> {
    let Some(key) = entry.pk.strip_prefix(&seeds.public) else {
        return Err(mismatch(entry, "pk", "it does not start with the public seed"));
    };
    let made = scheme
        .keygen(seeds)
        .map_err(|answer| mismatch(entry, "pk", format!("key generation answers {answer}")))?;
    difference(entry, "pk after the public seed", key, &made)
}

/// The short secret key is the two seeds; an expanded one ends with them, and is not read further.
fn check_secret_key(entry: &Entry, seeds: &Seeds) -> Result<(), Mismatch> {
    if entry.sk.ends_with(&seeds.to_bytes()) {
        return Ok(());
    }
    Err(mismatch(entry, "sk", "it does not end with the public and the private seed"))
}

fn check_signature(
    scheme: &Scheme,
    entry: &Entry,
    seeds: &Seeds,
    salt: &[u8; SALT],
) -> Result<(), Mismatch> {
    let Some(signature) = entry.sm.strip_suffix(&entry.msg[..]) else {
        return Err(mismatch(entry, "sm", "it does not end with the message"));
    };
    let digest = streams::digest(&entry.msg);
    let key = entry.pk.get(PUBLIC_SEED..).unwrap_or_default();
    let verdict = scheme.verify(&seeds.public, key, &digest, signature);
    if verdict != Answer::ACCEPTED {
        return Err(mismatch(entry, "the verdict on sm", verdict.to_string()));
    }
    if !signature.ends_with(salt) {
        return Err(mismatch(entry, "the salt of sm", "it is not what the generator gives next"));
    }
    let signed = scheme
        .sign(seeds, &digest, salt)
        .map_err(|answer| mismatch(entry, "sm", format!("signing answers {answer}")))?;
    difference(entry, "sm", signature, &signed.signature)
}

fn difference(
    entry: &Entry,
    step: &'static str,
    given: &[u8],
    made: &[u8],
) -> Result<(), Mismatch> {
    if given.len() != made.len() {
        let text = format!("{} bytes where {} are made", given.len(), made.len());
        return Err(mismatch(entry, step, text));
    }
    match given.iter().zip(made).position(|(given, made)| given != made) {
        None => Ok(()),
        Some(at) => Err(mismatch(
            entry,
            step,
            format!("byte {at} is {:02X} where {:02X} is made", given[at], made[at]),
        )),
    }
}
