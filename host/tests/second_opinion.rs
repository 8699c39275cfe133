//! The second opinion, live: what the host hashes, encrypts, generates, signs, beside Python's hashlib,
//! the command openssl, and the third program, on inputs drawn anew by `SNOVA_SEED`.

mod common;

use snova_host::engine::Engine;
use snova_host::hash::aes::Aes;
use snova_host::hash::drbg::Drbg;
use snova_host::hash::shake::{Shake128, Shake256};
use snova_host::hash::snova_shake::snova_shake;
use snova_host::hex;
use snova_host::prng::Prng;
use snova_host::scheme::{Scheme, Seeds};
use snova_host::set::Set;
use snova_host::streams::{self, Expansion};
use std::io::Write;
use std::process::{Command, Stdio};

/// What a program answers to bytes on its standard input.
fn said(program: &str, words: &[&str], input: &[u8]) -> Vec<u8> {
    let mut child = Command::new(program)
        .args(words)
        .stdin(Stdio::piped())
        .stdout(Stdio::piped())
        .spawn()
        .unwrap_or_else(|error| panic!("{program}: {error}; scripts/host-tests installs it"));
    let mut stdin = child.stdin.take().expect("a pipe");
    let input = input.to_vec();
    let writer = std::thread::spawn(move || stdin.write_all(&input));
    let output = child.wait_with_output().expect("it ends");
    writer.join().expect("a thread").expect("it reads all");
    assert!(output.status.success(), "{program} {words:?}: {}", output.status);
    output.stdout
}

fn third(word: &str, input: &str) -> String {
    let script = concat!(env!("CARGO_MANIFEST_DIR"), "/tests/third/third.py");
    String::from_utf8(said("python3", &[script, word], input.as_bytes())).expect("text")
}

/// A request for the third program, and what the host answers to it.
type Question = (String, Vec<u8>);

fn shown(bytes: &[u8]) -> String {
    if bytes.is_empty() { "-".to_string() } else { hex::encode(bytes) }
}

fn question(prng: &mut Prng, kind: usize) -> Question {
    let count = prng.pick(&[0, 1, 31, 136, 168, 169, 400, 1000]) + prng.below(3);
    let length = prng.below(600);
    let input = prng.bytes(length);
    let key: [u8; 16] = prng.bytes(16).try_into().expect("16 bytes");
    match kind {
        0 => (format!("shake128 {} {count}", shown(&input)), Shake128::hash(&[&input], count)),
        1 => (format!("shake256 {} {count}", shown(&input)), Shake256::hash(&[&input], count)),
        2 => (format!("snova_shake {} {count}", shown(&key)), snova_shake(&key, count)),
        3 => {
            let count = 10 * count;
            (
                format!("aes128-ctr {} {count}", shown(&key)),
                Aes::new_128(&key).counter_stream(count),
            )
        }
        4 => {
            let key: [u8; 32] = prng.bytes(32).try_into().expect("32 bytes");
            let block: [u8; 16] = prng.bytes(16).try_into().expect("16 bytes");
            let made = Aes::new_256(&key).encrypt(&block).to_vec();
            (format!("aes256 {} {}", shown(&key), shown(&block)), made)
        }
        5 => {
            let seed: [u8; 48] = prng.bytes(48).try_into().expect("48 bytes");
            let counts = [prng.range(1, 80), prng.range(1, 80), prng.range(1, 80)];
            let mut drbg = Drbg::new(&seed);
            let mut made = Vec::new();
            for count in counts {
                let mut bytes = vec![0; count];
                drbg.fill(&mut bytes);
                made.extend(bytes);
            }
            let [a, b, c] = counts;
            (format!("generator {} {a} {b} {c}", shown(&seed)), made)
        }
        _ => signature(prng, &input),
    }
}

/// Streams, key and signature of a random small set, by the library.
fn signature(prng: &mut Prng, document: &[u8]) -> Question {
    let set = Set::new(prng.range(1, 5), prng.range(1, 3), prng.range(2, 4));
    let expansion = prng.pick(&[Expansion::Aes, Expansion::Shake]);
    let scheme = Scheme::new(set, expansion, Engine::Library).expect("an allowed set");
    let seeds = Seeds::from_bytes(&prng.bytes(48).try_into().expect("48 bytes"));
    let salt: [u8; 16] = prng.bytes(16).try_into().expect("16 bytes");
    let lent = scheme.public_streams(&seeds.public);
    let key = scheme.keygen(&seeds).expect("a key");
    let signed = scheme.sign(&seeds, &streams::digest(document), &salt).expect("a signature");
    let words = [shown(&seeds.to_bytes()), shown(document), shown(&salt)].join(" ");
    let Set { v, o, l } = set;
    (
        format!("sign {v},{o},{l} {expansion} {words}"),
        [lent.public, lent.abq, key, signed.signature].concat(),
    )
}

#[test]
fn random_inputs_beside_hashlib_openssl_and_the_third_program() {
    let mut questions: Vec<Question> = Vec::new();
    common::cases("random_inputs", 0x5EED_0801, 60, |prng, _| {
        for kind in [0, 0, 0, 1, 1, 1, 2, 6] {
            questions.push(question(prng, kind));
        }
    });
    // These take a process each.
    common::cases("random_inputs", 0x5EED_0802, 12, |prng, _| {
        questions.extend([3, 4, 5].map(|kind| question(prng, kind)));
    });
    let requests: String = questions.iter().map(|(request, _)| format!("{request}\n")).collect();
    let answers = third("answers", &requests);
    let answers: Vec<&str> = answers.lines().collect();
    assert_eq!(answers.len(), questions.len());
    for ((request, made), answer) in questions.iter().zip(answers) {
        assert_eq!(hex::encode(made), answer, "{request}");
    }
}

/// SHAKE once more, by openssl's own.
#[test]
fn random_inputs_beside_openssls_shake() {
    common::cases("random_inputs_beside_openssls_shake", 0x5EED_0803, 6, |prng, place| {
        let length = prng.below(1000);
        let input = prng.bytes(length);
        let count = prng.range(1, 500);
        let words = |name| {
            [
                "dgst".to_string(),
                format!("-{name}"),
                "-xoflen".to_string(),
                count.to_string(),
                "-binary".to_string(),
            ]
        };
        for (name, made) in [
            ("shake128", Shake128::hash(&[&input], count)),
            ("shake256", Shake256::hash(&[&input], count)),
        ] {
            let words = words(name);
            let words: Vec<&str> = words.iter().map(String::as_str).collect();
            assert_eq!(said("openssl", &words, &input), made, "{place}: {name}");
        }
    });
}

/// The stored figures are what the third program prints today.
#[test]
fn the_fingerprints_are_the_third_programs() {
    assert_eq!(third("fingerprints", ""), include_str!("data/fingerprints.txt"));
}
