//! What the proved programs of the repository print, made once more by library and model.

mod common;

use common::{Call, Op, compare};
use snova_host::engine::Engine;
use snova_host::hex;
use snova_host::set::{SALT, Set};
use std::path::Path;

/// The rule of `crates/signing_page`: x starts at 8 seed + stream and becomes 75 x + 74 modulo
/// 65537 for each byte, which is x / 256 modulo 256.
fn filled(length: usize, seed: u32, stream: u32) -> Vec<u8> {
    let mut x = 8 * seed + stream;
    let mut byte = || {
        x = (75 * x + 74) % 65537;
        (x / 256 % 256) as u8
    };
    (0..length).map(|_| byte()).collect()
}

/// The signing of one row, with outputs that start as EE.
fn signing(set: Set, seed: u32, zero_vinegar: bool) -> Call {
    let exact = set.lengths().expect("an allowed set");
    let vinegar =
        if zero_vinegar { vec![0; exact.vinegar] } else { filled(exact.vinegar, seed, 4) };
    let buffers = vec![
        filled(exact.public, seed, 1),
        filled(exact.abq, seed, 2),
        filled(exact.private, seed, 3),
        vinegar,
        filled(exact.target, seed, 5),
        filled(SALT, seed, 6),
        vec![0xEE; exact.work],
        vec![0xEE; exact.signature],
    ];
    Call { op: Op::Sign, set, buffers }
}

/// The verdict on what the signing left, under the key of its streams.
fn verdict(signing: &Call, engine: Engine) -> Call {
    let exact = signing.set.lengths().expect("an allowed set");
    let buffer = |name: &str| signing.buffer(name).to_vec();
    let buffers = vec![buffer("public"), buffer("private"), vec![0xEE; exact.key]];
    let (_, generated) = Call { op: Op::Keygen, set: signing.set, buffers }.run(engine);
    let (_, signed) = signing.run(engine);
    let [key, signature] =
        [generated.buffer("key"), signed.buffer("signature")].map(<[u8]>::to_vec);
    let buffers = vec![buffer("public"), buffer("abq"), buffer("target"), key, signature];
    Call { op: Op::Verify, set: signing.set, buffers }
}

/// Each row of the program's table: set, streams, answer, verdict, work area, signature.
#[test]
fn the_signatures_of_the_signing_page() {
    let host = Path::new(env!("CARGO_MANIFEST_DIR"));
    let path = host.parent().expect("a folder").join("crates/signing_page/stdout");
    let text = std::fs::read_to_string(&path).expect("what the program prints");
    let rows: Vec<&str> = text.lines().skip(2).collect();
    assert!(rows.len() >= 6, "{} rows", rows.len());
    for row in rows {
        let cells: Vec<&str> = row.trim_matches('|').split('|').map(str::trim).collect();
        let set: Set = cells[0].parse().expect("a set");
        let (seed, zero_vinegar) = match cells[1].split_once(',') {
            Some((seed, _)) => (seed, true),
            None => (cells[1], false),
        };
        let signing = signing(set, seed.parse().expect("a number"), zero_vinegar);
        assert_eq!(compare(row, &signing).number().to_string(), cells[2], "{row}");
        for engine in Engine::BOTH {
            let (_, signed) = signing.run(engine);
            let zero = signed.buffer("work").iter().all(|&byte| byte == 0);
            assert_eq!(if zero { "zero" } else { "not zero" }, cells[4], "{row} {engine}");
            let signature = hex::encode(signed.buffer("signature"));
            assert_eq!(signature, cells[5].replace(' ', ""), "{row} {engine}");
            let answer = compare(row, &verdict(&signing, engine)).number();
            assert_eq!(answer.to_string(), cells[3], "{row} {engine}");
        }
    }
}
