//! The symmetric primitives against published values.
//!
//! The empty SHAKE inputs and the 200 bytes A3 are NIST's own examples, the AES blocks are FIPS
//! 197's; the seeds and messages of the generator stand at the head of every response file of the
//! PQC call. The other values were computed with OpenSSL and with Python's hashlib.

use snova_host::hash::aes::Aes;
use snova_host::hash::drbg::Drbg;
use snova_host::hash::shake::{Shake128, Shake256};
use snova_host::hash::snova_shake::snova_shake;
use snova_host::hex;

/// The bytes 0, 1, 2, .. of the given count.
fn counting(count: u8) -> Vec<u8> {
    (0..count).collect()
}

#[test]
fn shake128_gives_the_published_values() {
    let cases: [(Vec<u8>, &str); 7] = [
        (vec![], "7F9C2BA4E88F827D616045507605853ED73B8093F6EFBC88EB1A6EACFA66EF26"),
        (b"abc".to_vec(), "5881092DD818BF5CF8A3DDB793FBCBA74097D5C526A6D35F97B83351940F2CC8"),
        (vec![0xA3; 200], "131AB8D2B594946B9C81333F9BB6E0CE75C3B93104FA3469D3917457385DA037"),
        (counting(136), "30BDFD69382CAB028173FBA7C6D53878EC18081358E52C955DC6F5D52B60B029"),
        (counting(167), "1E552791CC4E93A0D4A8DC47AE49228C2FAA869E40E628F6ACE477AEC3F1CA7A"),
        (counting(168), "F15277EB61C4908D44A2853F3CDE071AE2ED7A23461FBE162A1A98CF6875059C"),
        (counting(169), "015BE3338C986D9846AFFA0F94B4AFC2A76BC289C709E1A596EC9ECCF090A773"),
    ];
    for (input, expected) in cases {
        assert_eq!(hex::encode(&Shake128::hash(&[&input], 32)), expected, "of {input:?}");
    }
}

#[test]
fn shake256_gives_the_published_values() {
    let cases: [(Vec<u8>, &str); 7] = [
        (vec![], "46B9DD2B0BA88D13233B3FEB743EEB243FCD52EA62B81B82B50C27646ED5762F"),
        (b"abc".to_vec(), "483366601360A8771C6863080CC4114D8DB44530F8F1E1EE4F94EA37E78B5739"),
        (vec![0xA3; 200], "CD8A920ED141AA0407A22D59288652E9D9F1A7EE0C1E7C1CA699424DA84A904D"),
        (counting(135), "C45DAE624AD8A2F5AA7BAC9D7557737FD91C96EEDB70A6BE5574D57A844EADE0"),
        (counting(136), "B7FF4073B3F5A8EABD6E17705CA7F6761A31058F9DF781A6A47E3A3063B9D67A"),
        (counting(137), "01D90952C642A5EB2A8FC9D713F843A45D7AC05132DDDCB2EFC9BEBC27E37BCB"),
        (b"SNOVA_ABQ".to_vec(), "B0182568F95390A18B31867C1014449BCFA4D67A8536A27CFE2A0AAAEDCEEDA7"),
    ];
    for (input, expected) in cases {
        assert_eq!(hex::encode(&Shake256::hash(&[&input], 32)), expected, "of {input:?}");
    }
}

/// Every length of input from 0 to 400, so every place of the padding: the outputs of 200 bytes, one
/// after the other, hashed once more. By Python's hashlib:
/// `shake_256(b"".join(shake_256(bytes(k % 251 for k in range(n))).digest(200) for n in range(401)))`.
#[test]
fn every_length_of_input() {
    let input = |n: usize| (0..n).map(|k| (k % 251) as u8).collect::<Vec<u8>>();
    let all: Vec<u8> = (0..=400).flat_map(|n| Shake128::hash(&[&input(n)], 200)).collect();
    assert_eq!(
        hex::encode(&Shake128::hash(&[&all], 32)),
        "F42079286978F3F087545CEE25A043C1BE6E18447601CA54DD48415BBD4C7BCC"
    );
    let all: Vec<u8> = (0..=400).flat_map(|n| Shake256::hash(&[&input(n)], 200)).collect();
    assert_eq!(
        hex::encode(&Shake256::hash(&[&all], 32)),
        "752007F4637B5DC469319D08A5A653586DAC0616C7CD192BEA46A3B21C983153"
    );
}

#[test]
fn long_output_goes_on_past_a_block() {
    let output = Shake128::hash(&[b"abc"], 1000);
    let tail = "F5641E3706635D09B2C0242C92674F31D3BB59C135A057202A6CFE2237DFDE3A";
    assert_eq!(hex::encode(&output[968..]), tail);
    let output = Shake256::hash(&[b"abc"], 1000);
    let tail = "9A0703BBA438F0AEF297B75A033D0C5A6BFBB24E7EDFD1E666A4B37F64D405BB";
    assert_eq!(hex::encode(&output[968..]), tail);
}

#[test]
fn input_and_output_may_come_in_parts() {
    let input = counting(250);
    let whole = Shake256::hash(&[&input], 300);
    for cut in 0..input.len() {
        assert_eq!(
            Shake256::hash(&[&input[..cut], &input[cut..]], 300),
            whole,
            "input cut at {cut}"
        );
    }
    for cut in 0..whole.len() {
        let mut sponge = Shake256::default();
        sponge.absorb(&input);
        let mut output = vec![0; 300];
        let (first, second) = output.split_at_mut(cut);
        sponge.squeeze(first);
        sponge.squeeze(second);
        assert_eq!(output, whole, "output cut at {cut}");
    }
}

#[test]
fn snova_shake_is_algorithm_6() {
    let output = snova_shake(&counting(16), 50_000);
    let at = |from: usize| hex::encode(&output[from..from + 24]);
    assert_eq!(at(0), "96E093D9861C8FB3620383C2BAF000638AB3A18A465A9E01");
    assert_eq!(at(168), "88C493EFC6A401DE0E2AD39D1F298A124803DEB139D5CB05");
    // The block index passes one byte here: block 256 is the first with a second byte.
    assert_eq!(at(168 * 256 - 4), "404ABFEE2DAC188B316450004BBD4B16725F591224271F7A");
    assert_eq!(at(50_000 - 24), "309F49E91C388A66234589B2D3F32BC5088B8B55E8FE6BE8");
    let seed_and_index = [counting(16), vec![1, 0, 0, 0, 0, 0, 0, 0]].concat();
    assert_eq!(output[168..336], Shake128::hash(&[&seed_and_index], 168));
    assert_eq!(snova_shake(&counting(16), 0), []);
}

#[test]
fn aes_encrypts_the_standards_examples() {
    let block = hex::decode("00112233445566778899AABBCCDDEEFF").unwrap().try_into().unwrap();
    let key = counting(16).try_into().unwrap();
    let cipher = Aes::new_128(&key).encrypt(&block);
    assert_eq!(hex::encode(&cipher), "69C4E0D86A7B0430D8CDB78070B4C55A");
    let key = counting(32).try_into().unwrap();
    let cipher = Aes::new_256(&key).encrypt(&block);
    assert_eq!(hex::encode(&cipher), "8EA2B7CA516745BFEAFC49904B496089");
}

#[test]
fn aes128_counter_mode_gives_the_values_of_openssl() {
    let zero = Aes::new_128(&[0; 16]).counter_stream(48);
    let expected = "66E94BD4EF8A2C3B884CFA59CA342B2E58E2FCCEFA7E3061367F1D57A4E7455A\
                    0388DACE60B6A392F328C2B971B2FE78";
    assert_eq!(hex::encode(&zero), expected);
    let stream = Aes::new_128(&counting(16).try_into().unwrap()).counter_stream(5000);
    let head = "C6A13B37878F5B826F4F8162A1C8D8797346139595C0B41E497BBDE365F42D0A49D68753999BA68C";
    assert_eq!(hex::encode(&stream[..40]), head);
    // 5000 bytes are 312 and a half blocks: the counter has passed one byte.
    let tail = "526B1E9D5C6DE68344A11AB589CF7B6E8D67896917DF5DF0630F35419C7BDD99542B7495E9BB5636";
    assert_eq!(hex::encode(&stream[4960..]), tail);
}

#[test]
fn the_generator_gives_the_seeds_and_messages_of_every_response_file() {
    let known = [
        (
            "061550234D158C5EC95595FE04EF7A25767F2E24CC2BC479D09D86DC9ABCFDE7\
             056A8C266F9EF97ED08541DBD2E1FFA1",
            "D81C4D8D734FCBFBEADE3D3F8A039FAA2A2C9957E835AD55B22E75BF57BB556AC8",
        ),
        (
            "64335BF29E5DE62842C941766BA129B0643B5E7121CA26CFC190EC7DC3543830\
             557FDD5C03CF123A456D48EFEA43C868",
            "225D5CE2CEAC61930A07503FB59F7C2F936A3E075481DA3CA299A80F8C5DF922\
             3A073E7B90E02EBF98CA2227EBA38C1AB2568209E46DBA961869C6F83983B17DCD49",
        ),
    ];
    let mut drbg = Drbg::new(&counting(48).try_into().unwrap());
    for (seed, message) in known {
        let mut bytes = vec![0; 48];
        drbg.fill(&mut bytes);
        assert_eq!(hex::encode(&bytes), seed);
        let mut bytes = vec![0; message.len() / 2];
        drbg.fill(&mut bytes);
        assert_eq!(hex::encode(&bytes), message);
    }
}

/// Twenty megabytes are hashed, and as many expanded, in well under a second each where the code is
/// optimized: by lanes and by columns, not byte by byte.
#[test]
fn twenty_megabytes_take_no_time() {
    let input = vec![0x5A; 20_000_000];
    let start = std::time::Instant::now();
    let digest = Shake256::hash(&[&input], 64);
    let hashed = start.elapsed();
    assert_eq!(digest.len(), 64);
    let start = std::time::Instant::now();
    let stream = Aes::new_128(&[7; 16]).counter_stream(20_000_000);
    let expanded = start.elapsed();
    assert_eq!(stream.len(), 20_000_000);
    println!("SHAKE256 {hashed:?}, AES128-CTR {expanded:?}");
    if !cfg!(debug_assertions) {
        assert!(hashed.as_millis() < 900 && expanded.as_millis() < 900, "{hashed:?} {expanded:?}");
    }
}
