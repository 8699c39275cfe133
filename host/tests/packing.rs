//! Packing and unpacking: library and model alike, and what page 01 says of both.

mod common;

use common::cases;
use common::guard::Guarded;
use snova_host::answer::Answer;
use snova_host::engine::Engine;
use snova_host::hex;

#[derive(Clone, Copy, Debug)]
enum Op {
    Pack,
    Unpack,
}

/// Runs both sides on copies of the same two slices that end at closed pages; what the library
/// answered and wrote.
fn both(place: &str, op: Op, read: &[u8], written: &[u8]) -> (Answer, Vec<u8>) {
    let run = |engine: Engine| {
        let read_copy = Guarded::new(read);
        let mut lent = Guarded::new(written);
        let answer = match op {
            Op::Pack => engine.pack(&read_copy, &mut lent),
            Op::Unpack => engine.unpack(&read_copy, &mut lent),
        };
        assert_eq!(&*read_copy, read, "{place}: {engine} changed what it reads");
        assert!(lent.intact(), "{place}: {engine} wrote before the slice");
        (answer, lent.to_vec())
    };
    let (library, model) = (run(Engine::Library), run(Engine::Model));
    let inputs = format!("{op:?} of {} into {}", hex::encode(read), hex::encode(written));
    assert_eq!(library, model, "{place}: {inputs}: library, then model");
    if library.0 != Answer::DONE {
        assert_eq!(library.1, written, "{place}: {inputs}: refused, and written");
    }
    library
}

/// Every pair of counts up to 40: 0 exactly where they fit, else 22.
#[test]
fn every_pair_of_counts() {
    for count in 0..=40usize {
        for length in 0..=40usize {
            let place = format!("{count} elements, {length} bytes");
            let expected = if length == count.div_ceil(2) { Answer::DONE } else { Answer::COUNTS };
            let elements: Vec<u8> = (0..count).map(|e| (e * 7 % 16) as u8).collect();
            let bytes: Vec<u8> = (0..length).map(|b| (b * 37 + 11) as u8).collect();
            assert_eq!(both(&place, Op::Pack, &elements, &bytes).0, expected, "{place}");
            assert_eq!(both(&place, Op::Unpack, &bytes, &elements).0, expected, "{place}");
        }
    }
}

/// Every value of an element at every place of a short list: 23 above 15, nothing written.
#[test]
fn every_value_of_an_element() {
    for count in 1..=5usize {
        for at in 0..count {
            for value in 0..=255u8 {
                let mut elements = vec![3; count];
                elements[at] = value;
                let place = format!("{value} at {at} of {count}");
                let (answer, bytes) =
                    both(&place, Op::Pack, &elements, &vec![0x99; count.div_ceil(2)]);
                if value > 15 {
                    assert_eq!(answer, Answer::ENTRY, "{place}");
                } else {
                    assert_eq!(answer, Answer::DONE, "{place}");
                    let half = if at % 2 == 0 { bytes[at / 2] & 15 } else { bytes[at / 2] >> 4 };
                    assert_eq!(half, value, "{place}");
                }
                let short = vec![0x99; count.div_ceil(2) - 1];
                assert_eq!(both(&place, Op::Pack, &elements, &short).0, Answer::COUNTS, "{place}");
            }
        }
    }
}

/// Every byte: unpacking it and packing the elements gives it back.
#[test]
fn every_byte_there_and_back() {
    for byte in 0..=255u8 {
        let (_, elements) = both("a byte", Op::Unpack, &[byte], &[99, 99]);
        assert_eq!(elements, [byte & 15, byte >> 4]);
        assert_eq!(both("a byte", Op::Pack, &elements, &[99]), (Answer::DONE, vec![byte]));
        let (_, element) = both("a low half", Op::Unpack, &[byte], &[99]);
        assert_eq!(element, [byte & 15]);
        let spare_is_zero = (Answer::DONE, vec![byte & 15]);
        assert_eq!(both("a low half", Op::Pack, &element, &[99]), spare_is_zero);
    }
}

/// Long random lists there and back, some with an element above 15.
#[test]
fn random_lists() {
    cases("random_lists", 0x5EED_0301, 1000, |prng, place| {
        let count = prng.below(3000);
        let mut elements: Vec<u8> = prng.bytes(count).iter().map(|byte| byte & 15).collect();
        let before = prng.bytes(count.div_ceil(2));
        let (answer, bytes) = both(place, Op::Pack, &elements, &before);
        assert_eq!(answer, Answer::DONE, "{place}");
        let back = both(place, Op::Unpack, &bytes, &prng.bytes(count));
        assert_eq!(back, (Answer::DONE, elements.clone()), "{place}");
        if count > 0 {
            let at = prng.below(count);
            elements[at] |= 16 << prng.below(4);
            assert_eq!(both(place, Op::Pack, &elements, &before).0, Answer::ENTRY, "{place}");
        }
    });
}
