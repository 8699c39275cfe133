//! From seeds to streams, keys and signatures. The known answers of `data/fingerprints.txt` were
//! written by a third program, `third/third.py`, which shares nothing with library and model.

use snova_host::answer::Answer;
use snova_host::engine::Engine;
use snova_host::hash::shake::Shake256;
use snova_host::hex;
use snova_host::prng::Prng;
use snova_host::scheme::{Scheme, Seeds, Signed};
use snova_host::set::{ROUND_2, Set};
use snova_host::streams::{self, Expansion};

fn fingerprint(bytes: &[u8]) -> String {
    hex::encode(&Shake256::hash(&[bytes], 16))
}

fn counting_seeds() -> Seeds {
    Seeds {
        public: std::array::from_fn(|at| at as u8),
        private: std::array::from_fn(|at| 32 + at as u8),
    }
}

/// Each line: set, expansion, and the fingerprints of public stream, ABQ stream, key, signature.
const KNOWN: &str = include_str!("data/fingerprints.txt");

#[test]
fn keys_and_signatures_of_the_third_program() {
    let seeds = counting_seeds();
    let digest = streams::digest(b"page 01");
    let salt = std::array::from_fn(|at| 100 + at as u8);
    for line in KNOWN.lines().filter(|line| !line.starts_with('#')) {
        let words: Vec<&str> = line.split(' ').collect();
        let set: Set = words[0].parse().expect("a set");
        let expansion: Expansion = words[1].parse().expect("an expansion");
        for engine in Engine::BOTH {
            let scheme = Scheme::new(set, expansion, engine).expect("an allowed set");
            let lent = scheme.public_streams(&seeds.public);
            let key = scheme.keygen(&seeds).expect("a key");
            let signed = scheme.sign(&seeds, &digest, &salt).expect("a signature");
            let made = [&lent.public, &lent.abq, &key, &signed.signature];
            assert_eq!(made.map(|bytes| fingerprint(bytes))[..], words[2..], "{line} {engine}");
            assert_eq!(signed.tries, 1, "{line} {engine}");
        }
    }
}

#[test]
fn the_abq_stream_is_fixed_for_l_up_to_3_and_follows_the_public_stream_for_l_4() {
    let other = Seeds { public: [7; 16], ..counting_seeds() };
    for (set, fixed) in
        [(Set::new(5, 3, 2), true), (Set::new(4, 3, 3), true), (Set::new(4, 2, 4), false)]
    {
        let scheme = Scheme::new(set, Expansion::Aes, Engine::Model).expect("an allowed set");
        let one = scheme.public_streams(&counting_seeds().public);
        let two = scheme.public_streams(&other.public);
        assert_ne!(one.public, two.public, "{set}");
        assert_eq!(one.abq == two.abq, fixed, "{set}");
        if fixed {
            assert_eq!(one.abq, Shake256::hash(&[b"SNOVA_ABQ"], scheme.exact.abq), "{set}");
        } else {
            let whole = Expansion::Aes
                .expand(&counting_seeds().public, scheme.exact.public + scheme.exact.abq);
            assert_eq!([one.public, one.abq].concat(), whole, "{set}");
        }
    }
}

/// For l = 4 no half byte stands between the two streams, whatever v and o are.
#[test]
fn the_public_stream_ends_on_a_whole_byte_for_l_4() {
    for v in 1..=75usize {
        for o in 1..=10usize {
            let elements = o * (v * v + 2 * v * o) * 16;
            assert_eq!(elements % 2, 0);
            assert_eq!(Set::new(v, o, 4).lengths().expect("allowed").public, elements / 2);
        }
    }
}

/// Signs, verifies, and sees that another document, key or signature is not accepted.
fn round_trip(scheme: &Scheme, prng: &mut Prng) -> Signed {
    let label = format!("{} {} {}", scheme.set, scheme.expansion, scheme.engine);
    let seeds = Seeds::from_bytes(&prng.bytes(Seeds::BYTES).try_into().expect("48 bytes"));
    let salt = prng.bytes(16).try_into().expect("16 bytes");
    let digest = streams::digest(scheme.set.name().as_bytes());
    let key = scheme.keygen(&seeds).expect("a key");
    let signed = scheme.sign(&seeds, &digest, &salt).expect("a signature");
    let verdict = |key: &[u8], digest: &[u8], signature: &[u8]| {
        scheme.verify(&seeds.public, key, digest, signature)
    };
    let signature = &signed.signature;
    assert_eq!(verdict(&key, &digest, signature), Answer::ACCEPTED, "{label}");
    let other = streams::digest(b"another document");
    assert_eq!(verdict(&key, &other, signature), Answer::NOT_ACCEPTED, "{label}");
    let mut damaged = signature.clone();
    let at = damaged.len() - 1;
    damaged[at] ^= 1;
    assert_eq!(verdict(&key, &digest, &damaged), Answer::NOT_ACCEPTED, "{label}: another salt");
    assert_eq!(verdict(&key, &digest, &signature[1..]), Answer::SIGNATURE, "{label}");
    assert_eq!(verdict(&key[1..], &digest, signature), Answer::KEY, "{label}");
    signed
}

#[test]
fn round_trips_of_the_nine_sets() {
    let mut prng = Prng::new(0x5EED_0501);
    for set in ROUND_2 {
        for expansion in [Expansion::Aes, Expansion::Shake] {
            let scheme = Scheme::new(set, expansion, Engine::Library).expect("an allowed set");
            round_trip(&scheme, &mut prng);
        }
    }
}

/// Small sets give redo about once in fifteen tries: both engines then take the same next try.
#[test]
fn trying_again_after_a_redo() {
    let mut again = 0;
    for seed in 0..60 {
        for set in [Set::new(2, 1, 2), Set::new(2, 2, 3), Set::new(2, 1, 4)] {
            let signed = Engine::BOTH.map(|engine| {
                let scheme = Scheme::new(set, Expansion::Aes, engine).expect("an allowed set");
                round_trip(&scheme, &mut Prng::of_case(0x5EED_0502, seed))
            });
            assert_eq!(signed[0], signed[1], "{set}, seed {seed}");
            again += usize::from(signed[0].tries > 1);
        }
    }
    assert!((5..60).contains(&again), "{again} of 180 signatures took a second try");
}

#[test]
fn a_set_outside_the_limits_has_no_scheme() {
    let refused = Scheme::new(Set::new(24, 5, 5), Expansion::Aes, Engine::Library);
    assert_eq!(refused.err(), Some(Answer::SET));
}
