//! Exercise books and salvage (page 02, Req 13 and Req 14): the proved library against a plain reader, writer and salvager, on thousands of random books.

mod common;

use common::guard::Guarded;
use snova_host::answer::Answer;
use snova_host::books::model::{self, Field};
use snova_host::books::{self, BLOCK};
use snova_host::lent::{KeyStreams, SigningStreams};
use snova_host::library;
use snova_host::prng::Prng;
use snova_host::set::Set;

const BOOKS: u64 = 3000;

/// Fields in order: exercises and kinds rise, sizes are often about a whole part.
fn fields(prng: &mut Prng) -> Vec<Field> {
    let mut all = Vec::new();
    let mut exercise = prng.below(3) as u16 * prng.below(20000) as u16 % 60000;
    for _ in 0..prng.below(6) {
        for kind in 1..=7 {
            if prng.below(3) != 0 {
                continue;
            }
            let size = match prng.below(4) {
                0 => 1 + prng.below(3),
                1 => 499 + prng.below(3),
                2 => 999 + prng.below(3),
                _ => 1 + prng.below(2500),
            };
            all.push(Field { exercise, kind, payload: prng.bytes(size) });
        }
        exercise += 1 + prng.below(900) as u16;
    }
    all
}

/// The library's writer on the lists of the fields, with an output of a length.
fn write(fields: &[Field], length: usize) -> (Answer, Vec<u8>) {
    let exercises: Vec<u16> = fields.iter().map(|field| field.exercise).collect();
    let kinds: Vec<u8> = fields.iter().map(|field| field.kind).collect();
    let sizes: Vec<usize> = fields.iter().map(|field| field.payload.len()).collect();
    let payload: Vec<u8> = fields.iter().flat_map(|field| field.payload.clone()).collect();
    let mut book = Guarded::new(&vec![0xA5; length]);
    let answer =
        books::write(&exercises, &Guarded::new(&kinds), &sizes, &Guarded::new(&payload), &mut book);
    assert!(book.intact(), "nothing is written before the book");
    (answer, book.to_vec())
}

/// A book with some of its words altered, blocks moved, lost or made anew.
fn damaged(prng: &mut Prng, book: &[u8]) -> Vec<u8> {
    let mut bad = book.to_vec();
    let blocks = bad.len() / BLOCK;
    for _ in 0..prng.below(4) {
        if blocks == 0 {
            break;
        }
        let (b, other) = (prng.below(blocks), prng.below(blocks));
        let range = b * BLOCK..(b + 1) * BLOCK;
        match prng.below(4) {
            // one word
            0 => bad[b * BLOCK + prng.below(BLOCK)] ^= 1 + prng.below(255) as u8,
            // another block's bytes, with the check made for this place
            1 => {
                let mut copy = bad[other * BLOCK..(other + 1) * BLOCK].to_vec();
                let sum = model::check(&copy, b + 1);
                copy[508..].copy_from_slice(&sum.to_le_bytes());
                bad[range].copy_from_slice(&copy);
            }
            // a byte of the opening, or of the payload's end, with the check made again
            2 => {
                bad[b * BLOCK + prng.below(9)] ^= 1 + prng.below(3) as u8;
                let sum = model::check(&bad[range.clone()], b + 1);
                bad[range.end - 4..range.end].copy_from_slice(&sum.to_le_bytes());
            }
            _ => bad[range].fill(0),
        }
    }
    bad
}

#[test]
fn written_books_agree_and_read_back() {
    for seed in 0..BOOKS {
        let mut prng = Prng::new(seed);
        let fields = fields(&mut prng);
        let model = model::write(&fields).expect("fields in order");
        let (answer, book) = write(&fields, model.len());
        assert_eq!(answer, Answer::DONE, "seed {seed}");
        assert_eq!(book, model, "seed {seed}");
        assert_eq!(books::read(&book), Answer::DONE, "seed {seed}");
        assert_eq!(books::fields(&book).expect("a sound book"), fields, "seed {seed}");
        assert_eq!(model::read(&book).expect("a sound book"), fields, "seed {seed}");
        let (answer, left) = write(&fields, model.len() + 1);
        assert_eq!(answer, Answer(20), "seed {seed}");
        assert!(left.iter().all(|byte| *byte == 0xA5), "seed {seed}: nothing is written");
    }
}

#[test]
fn fields_out_of_order_are_refused() {
    for seed in 0..BOOKS {
        let mut prng = Prng::new(10_000 + seed);
        let mut fields = fields(&mut prng);
        if fields.is_empty() {
            continue;
        }
        let (i, j) = (prng.below(fields.len()), prng.below(fields.len()));
        match prng.below(3) {
            0 => fields.swap(i, j),
            1 => fields[i].payload.clear(),
            _ => fields[i].kind = [0, 8, 255][prng.below(3)],
        }
        let (number, length) = match model::write(&fields) {
            Ok(book) => (0, book.len()),
            Err(number) => (number, BLOCK),
        };
        assert_eq!(write(&fields, length).0, Answer(number), "seed {seed}");
    }
}

#[test]
fn damaged_books_agree() {
    for seed in 0..BOOKS {
        let mut prng = Prng::new(20_000 + seed);
        let book = model::write(&fields(&mut prng)).expect("fields in order");
        let mut bad = damaged(&mut prng, &book);
        if prng.below(20) == 0 {
            bad.push(0);
        }
        let number = model::read(&bad).err().unwrap_or(0);
        let bad = Guarded::new(&bad);
        assert_eq!(books::read(&bad), Answer(number), "seed {seed}");
        assert_eq!(
            books::fields(&bad).map_err(|answer| answer.0),
            model::read(&bad),
            "seed {seed}"
        );
    }
}

#[test]
fn salvage_agrees_and_the_reader_takes_it() {
    for seed in 0..BOOKS {
        let mut prng = Prng::new(30_000 + seed);
        let book = model::write(&fields(&mut prng)).expect("fields in order");
        let bad = damaged(&mut prng, &book);
        let (new, list) = model::salvage(&bad).expect("whole blocks");
        let mut output = Guarded::new(&vec![0xA5; bad.len()]);
        let mut numbers = Guarded::new(&vec![0xA5; bad.len() / BLOCK]);
        let mut kept = 99_999;
        assert_eq!(
            books::salvage(&Guarded::new(&bad), &mut output, &mut numbers, &mut kept),
            Answer::DONE,
            "seed {seed}"
        );
        assert_eq!(*numbers, list, "seed {seed}");
        assert_eq!(kept * BLOCK, new.len(), "seed {seed}");
        assert_eq!(output[..new.len()], new, "seed {seed}");
        assert!(
            output[new.len()..].iter().all(|byte| *byte == 0xA5),
            "seed {seed}: what follows stays"
        );
        assert_eq!(books::read(&new), Answer::DONE, "seed {seed}");
    }
}

#[test]
fn a_word_altered_in_each_block_keeps_payloads() {
    for seed in 0..BOOKS {
        let mut prng = Prng::new(40_000 + seed);
        let book = model::write(&fields(&mut prng)).expect("fields in order");
        let mut bad = book.clone();
        for b in 0..bad.len() / BLOCK {
            if prng.below(5) == 0 {
                let at = b * BLOCK + 4 * prng.below(128);
                let new = prng.bytes(4);
                bad[at..at + 4].copy_from_slice(&new);
            }
        }
        let mut output = vec![0; bad.len()];
        let mut list = vec![0; bad.len() / BLOCK];
        let mut kept = 0;
        assert_eq!(
            books::salvage(&bad, &mut output, &mut list, &mut kept),
            Answer::DONE,
            "seed {seed}"
        );
        let old: Vec<usize> = (0..list.len()).filter(|b| list[*b] == 0).collect();
        assert_eq!(old.len(), kept, "seed {seed}");
        for (k, b) in old.into_iter().enumerate() {
            assert_eq!(
                output[k * BLOCK..k * BLOCK + 508],
                book[b * BLOCK..b * BLOCK + 508],
                "seed {seed}: block {b}"
            );
        }
    }
}

#[test]
fn lengths_are_refused_and_nothing_is_written() {
    let book = vec![0; 3 * BLOCK];
    for (output, list, number) in [(3 * BLOCK - 1, 3, 20), (3 * BLOCK, 2, 20), (0, 0, 20)] {
        let (mut output, mut list, mut kept) = (vec![7; output], vec![7; list], 7);
        assert_eq!(books::salvage(&book, &mut output, &mut list, &mut kept), Answer(number));
        assert!(output.iter().chain(&list).all(|byte| *byte == 7) && kept == 7);
    }
    let (mut output, mut list, mut kept) = (vec![7; 5], vec![7; 0], 7);
    assert_eq!(books::salvage(&book[..5], &mut output, &mut list, &mut kept), Answer(40));
    assert!(output.iter().all(|byte| *byte == 7) && kept == 7);
    let mut numbers = [7u64; 3];
    assert_eq!(books::field_numbers(&[], 0, &mut numbers), Answer(20));
    let mut numbers = [7u64; 4];
    assert_eq!(books::field_numbers(&[], 0, &mut numbers), Answer(1));
    assert_eq!(numbers, [7; 4]);
    assert_eq!(books::payload(&[], 0, &mut []), Answer::DONE);
    assert_eq!(books::payload(&[], 0, &mut [1]), Answer(20));
}

#[test]
fn the_longest_book_is_read_quickly() {
    let payload: Vec<u8> = (0..500 * 65_536).map(|i| (i % 251) as u8).collect();
    let fields = [Field { exercise: 1, kind: 1, payload }];
    let (answer, book) = write(&fields, 65_536 * BLOCK);
    assert_eq!(answer, Answer::DONE);
    let begin = std::time::Instant::now();
    assert_eq!(books::read(&book), Answer::DONE);
    assert!(begin.elapsed().as_secs_f64() < 1.0, "32 MiB took {:?}", begin.elapsed());
    let mut longer = book;
    longer.extend_from_slice(&[0; BLOCK]);
    assert_eq!(books::read(&longer), Answer(40));
}

/// An exercise made from a signature's streams: written, damaged in one word, salvaged, read, and compared with the original.
#[test]
fn an_exercise_of_a_signature() {
    let set = Set::new(24, 5, 4);
    let exact = set.lengths().expect("an allowed set");
    let mut prng = Prng::new(13);
    let mut all = Vec::new();
    for exercise in 1..=3 {
        let public = prng.bytes(exact.public);
        let abq = prng.bytes(exact.abq);
        let private = prng.bytes(exact.private);
        let target = prng.bytes(exact.target);
        let salt = prng.bytes(16);
        let mut key = vec![0; exact.key];
        let streams = KeyStreams { public: &public, private: &private };
        assert_eq!(library::keygen(set, &streams, &mut key), Answer::DONE);
        let (mut work, mut signature) = (vec![0; exact.work], vec![0; exact.signature]);
        let vinegar = loop {
            let vinegar = prng.bytes(exact.vinegar);
            let streams = SigningStreams {
                public: &public,
                abq: &abq,
                private: &private,
                vinegar: &vinegar,
                target: &target,
                salt: &salt,
            };
            if library::sign(set, &streams, &mut work, &mut signature) == Answer::DONE {
                break vinegar;
            }
        };
        for (kind, payload) in (1..).zip([public, abq, private, vinegar, target, key, signature]) {
            all.push(Field { exercise, kind, payload });
        }
    }
    let book = model::write(&all).expect("fields in order");
    let blocks = book.len() / BLOCK;
    for _ in 0..200 {
        let mut bad = book.clone();
        let (b, at) = (prng.below(blocks), 4 * prng.below(128));
        bad[b * BLOCK + at] ^= 1 + prng.below(255) as u8;
        assert_eq!(books::read(&bad), Answer(41));
        let (mut output, mut list, mut kept) = (vec![0; bad.len()], vec![0; blocks], 0);
        assert_eq!(books::salvage(&bad, &mut output, &mut list, &mut kept), Answer::DONE);
        assert_eq!(list[b], 41);
        let read = books::fields(&output[..kept * BLOCK]).expect("the reader takes it");
        let spoiled: Vec<u16> = all
            .iter()
            .map(|field| field.exercise)
            .filter(|e| read.iter().all(|field| field.exercise != *e))
            .collect();
        let rest: Vec<Field> =
            all.iter().filter(|field| !spoiled.contains(&field.exercise)).cloned().collect();
        assert_eq!(read, rest);
        assert!(!read.is_empty());
    }
}
