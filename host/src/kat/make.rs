//! Makes entries as NIST's generator does: seeds and messages from one generator that is started
//! with the bytes 0 to 47, all randomness of an entry from a second one started with its seed.

use super::Entry;
use crate::answer::Answer;
use crate::hash::drbg::{Drbg, SEED};
use crate::scheme::{Scheme, Seeds};
use crate::set::SALT;
use crate::streams::{self, Expansion};

/// The name of a set and expansion in a file's first line. The expansion by AES goes unnamed.
pub fn title(scheme: &Scheme) -> String {
    match scheme.expansion {
        Expansion::Aes => format!("{}_SSK", scheme.set.name()),
        Expansion::Shake => format!("{}_SHAKE_SSK", scheme.set.name()),
    }
}

pub fn file_name(scheme: &Scheme) -> String {
    format!("PQCsignKAT_{}_{}.rsp", Seeds::BYTES, title(scheme))
}

/// The first `count` entries. `progress` hears the number of each that is done.
pub fn make(
    scheme: &Scheme,
    count: u32,
    mut progress: impl FnMut(u32),
) -> Result<Vec<Entry>, Answer> {
    let mut requests = Drbg::new(&std::array::from_fn(|at| at as u8));
    let mut entries = Vec::new();
    for number in 0..count {
        let seed: [u8; SEED] = requests.bytes();
        let mut message = vec![0; 33 * (number as usize + 1)];
        requests.fill(&mut message);
        entries.push(entry(scheme, number, &seed, message)?);
        progress(number + 1);
    }
    Ok(entries)
}

fn entry(scheme: &Scheme, count: u32, seed: &[u8; SEED], msg: Vec<u8>) -> Result<Entry, Answer> {
    let mut drbg = Drbg::new(seed);
    let seeds = Seeds::from_bytes(&drbg.bytes());
    let salt: [u8; SALT] = drbg.bytes();
    let key = scheme.keygen(&seeds)?;
    let signed = scheme.sign(&seeds, &streams::digest(&msg), &salt)?;
    let sm = [&signed.signature[..], &msg].concat();
    Ok(Entry {
        count,
        seed: seed.to_vec(),
        mlen: msg.len() as u32,
        pk: [&seeds.public[..], &key].concat(),
        sk: seeds.to_bytes(),
        smlen: sm.len() as u32,
        msg,
        sm,
    })
}
