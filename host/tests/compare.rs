//! The proved library against the independent model on random and on extreme inputs.

mod common;

use common::{Call, Op, Style, cases, compare, damage, fill, random_set, single_case};
use common::{valid_call, verdict_of};
use snova_host::answer::Answer;
use snova_host::engine::Engine;
use snova_host::prng::Prng;
use snova_host::set::{ROUND_2, SALT, Set};

/// How often each outcome came.
#[derive(Default, Debug)]
struct Tally {
    done: usize,
    not_accepted: usize,
    redo: usize,
}

impl Tally {
    fn count(&mut self, answer: Answer) {
        match answer {
            Answer::DONE => self.done += 1,
            Answer::NOT_ACCEPTED => self.not_accepted += 1,
            Answer::REDO => self.redo += 1,
            _ => {}
        }
    }
}

#[test]
fn random_key_generation() {
    cases("random_key_generation", 0x5EED_0001, 1500, |prng, place| {
        let set = random_set(prng, 6);
        let call = valid_call(prng, Op::Keygen, set, |prng, _| Style::any(prng));
        compare(place, &call);
    });
}

#[test]
fn random_signing() {
    let mut tally = Tally::default();
    cases("random_signing", 0x5EED_0002, 1500, |prng, place| {
        let set = random_set(prng, 4);
        let call = valid_call(prng, Op::Sign, set, |prng, _| Style::any(prng));
        tally.count(compare(place, &call));
    });
    assert!(single_case() || tally.done > 300 && tally.redo > 100, "{tally:?}");
}

/// Sets with one or two vinegars, where the linear part is often singular without being zero.
#[test]
fn random_signing_near_redo() {
    let mut tally = Tally::default();
    cases("random_signing_near_redo", 0x5EED_0003, 1500, |prng, place| {
        let set = Set::new(prng.range(1, 2), prng.range(1, 3), prng.range(2, 4));
        let call = valid_call(prng, Op::Sign, set, |prng, name| match name {
            "vinegar" => prng.pick(&[Style::OneByte, Style::Sparse, Style::LowHalves]),
            _ => Style::Random,
        });
        tally.count(compare(place, &call));
    });
    assert!(single_case() || tally.done > 100 && tally.redo > 100, "{tally:?}");
}

#[test]
fn random_verdicts() {
    let mut tally = Tally::default();
    cases("random_verdicts", 0x5EED_0004, 1000, |prng, place| {
        let set = random_set(prng, 5);
        let mut call = valid_call(prng, Op::Verify, set, |prng, _| Style::any(prng));
        if prng.below(4) == 0 {
            // Zero on both sides is accepted.
            call.buffer_mut("signature").fill(0);
            call.buffer_mut("target").fill(0);
        }
        tally.count(compare(place, &call));
    });
    assert!(single_case() || tally.done > 100 && tally.not_accepted > 300, "{tally:?}");
}

/// What signing writes is accepted with the generated key; one bit of damage is judged alike.
#[test]
fn signed_and_damaged_verdicts() {
    let mut tally = Tally::default();
    cases("signed_and_damaged_verdicts", 0x5EED_0005, 700, |prng, place| {
        let set = random_set(prng, 4);
        let signing = valid_call(prng, Op::Sign, set, |_, _| Style::Random);
        compare(place, &signing);
        if let Some(mut verdict) = verdict_of(&signing, Engine::Library) {
            assert_eq!(compare(place, &verdict), Answer::ACCEPTED, "{place}");
            for _ in 0..3 {
                damage(prng, &mut verdict);
                tally.count(compare(place, &verdict));
            }
        }
    });
    // Damage to the salt, to a spare half or to an A or B may leave the verdict as it was.
    assert!(single_case() || tally.not_accepted > 300, "{tally:?}");
}

/// From an accepted call, every element of the target, of the key and of the signature is changed
/// alone. No other target is accepted; key and signature are judged alike by both sides.
#[test]
fn every_element_counts() {
    let mut refuted = Tally::default();
    cases("every_element_counts", 0x5EED_000B, 10, |prng, place| {
        let set = random_set(prng, 3);
        let signing = valid_call(prng, Op::Sign, set, |_, _| Style::Random);
        let Some(verdict) = verdict_of(&signing, Engine::Model) else { return };
        assert_eq!(compare(place, &verdict), Answer::ACCEPTED, "{place}");
        let block = set.l * set.l;
        let counts = [("target", set.o), ("key", set.o * set.o * set.o), ("signature", set.n())];
        for (name, blocks) in counts {
            for element in 0..blocks * block {
                let mut changed = verdict.clone();
                changed.buffer_mut(name)[element / 2] ^= 1 << (prng.below(4) + element % 2 * 4);
                let answer = compare(&format!("{place}, element {element} of {name}"), &changed);
                refuted.count(answer);
                assert!(name != "target" || answer == Answer::NOT_ACCEPTED, "{place}: {element}");
            }
        }
    });
    assert!(single_case() || refuted.not_accepted > 100, "{refuted:?}");
}

/// A buffer that is one byte, one element or a whole stream off, with all others right.
#[test]
fn one_buffer_of_another_length() {
    cases("one_buffer_of_another_length", 0x5EED_0006, 1500, |prng, place| {
        let set = random_set(prng, 4);
        let op = prng.pick(&Op::ALL);
        let mut call = valid_call(prng, op, set, |_, _| Style::Random);
        let at = prng.below(call.buffers.len());
        let exact = call.buffers[at].len();
        // A length that is cut to one or two bytes on the way would pass for the exact one.
        let length = match prng.below(8) {
            0 => 0,
            1 => exact - 1,
            2 => exact + 1,
            3 => exact * 2,
            4 => exact + 16,
            5 => exact + 256 * prng.range(1, 3),
            6 => exact + 65536 * prng.range(1, 2),
            _ => prng.below(2 * exact + 2),
        };
        call.buffers[at] = fill(prng, Style::Random, length);
        compare(place, &call);
    });
}

/// Any three numbers for the set, any lengths for the buffers.
#[test]
fn any_numbers_and_any_lengths() {
    cases("any_numbers_and_any_lengths", 0x5EED_0007, 3000, |prng, place| {
        let set = Set::new(any_number(prng), any_number(prng), any_number(prng));
        let op = prng.pick(&Op::ALL);
        let buffer = |prng: &mut Prng| {
            let length = prng.below(70);
            fill(prng, Style::Random, length)
        };
        let buffers = op.takes().iter().map(|_| buffer(prng)).collect();
        compare(place, &Call { op, set, buffers });
    });
}

fn any_number(prng: &mut Prng) -> usize {
    match prng.below(4) {
        0 => prng.below(6),
        1 => prng.below(200),
        2 => usize::MAX - prng.below(4),
        _ => (1usize << prng.below(64)).wrapping_add(prng.below(5)).wrapping_sub(2),
    }
}

/// All nine sets: a key, three signatures or redos, their verdicts, sound and damaged.
#[test]
fn the_nine_sets() {
    let seed = 0x5EED_0008;
    for (number, &set) in ROUND_2.iter().enumerate() {
        let place = format!("test the_nine_sets, seed {seed:#x}, set {set}");
        let mut prng = Prng::of_case(seed, number as u64);
        let mut accepted = 0;
        for _ in 0..2 {
            let signing = valid_call(&mut prng, Op::Sign, set, |_, _| Style::Random);
            compare(&place, &signing);
            let keygen = valid_call(&mut prng, Op::Keygen, set, |_, _| Style::Random);
            compare(&place, &keygen);
            if let Some(mut verdict) = verdict_of(&signing, Engine::Library) {
                assert_eq!(compare(&place, &verdict), Answer::ACCEPTED, "{place}");
                accepted += 1;
                let at = prng.below(set.n() * set.l * set.l / 2);
                verdict.buffer_mut("signature")[at] ^= 1 << prng.below(8);
                assert_eq!(compare(&place, &verdict), Answer::NOT_ACCEPTED, "{place}");
            }
        }
        assert!(accepted > 0, "{place}: all tries gave redo");
    }
}

/// All nine sets: one bit of one buffer changed, each buffer in turn, for every operation.
#[test]
fn the_nine_sets_damaged() {
    let seed = 0x5EED_000C;
    for (number, &set) in ROUND_2.iter().enumerate() {
        let place = format!("test the_nine_sets_damaged, seed {seed:#x}, set {set}");
        let mut prng = Prng::of_case(seed, number as u64);
        let signing = valid_call(&mut prng, Op::Sign, set, |_, _| Style::Random);
        let verdict = verdict_of(&signing, Engine::Library);
        let keygen = valid_call(&mut prng, Op::Keygen, set, |_, _| Style::Random);
        for call in verdict.iter().chain([&keygen]) {
            for (at, takes) in call.op.takes().iter().enumerate() {
                let mut damaged = call.clone();
                let byte = prng.below(damaged.buffers[at].len());
                damaged.buffers[at][byte] ^= 1 << prng.below(8);
                compare(
                    &format!("{place}, {:?}, byte {byte} of {}", call.op, takes.name),
                    &damaged,
                );
            }
        }
    }
}

/// The buffers whose last byte has a spare half, for one operation and set.
fn with_spare_half(op: Op, set: Set) -> Vec<usize> {
    let Set { v, o, l } = set;
    let block = l * l;
    let elements = |name: &str| match name {
        "public" => o * (v * v + 2 * v * o) * block,
        "private" => v * o * l,
        "vinegar" => v * block,
        "target" => o * block,
        "key" => o * o * o * block,
        "signature" => set.n() * block,
        _ => 0,
    };
    let takes = op.takes().iter().enumerate().filter(|(_, takes)| !takes.written);
    takes.filter(|(_, takes)| elements(takes.name) % 2 == 1).map(|(at, _)| at).collect()
}

/// Readers do not look at a spare half: whatever stands there, answer and output are the same.
/// Writers leave a zero there, whatever stood in the output before.
#[test]
fn spare_halves() {
    let mut seen = 0;
    cases("spare_halves", 0x5EED_000D, 60, |prng, place| {
        let set = Set::new(prng.range(1, 3), prng.range(1, 3), 3);
        let signing = valid_call(prng, Op::Sign, set, |_, _| Style::Random);
        let keygen = valid_call(prng, Op::Keygen, set, |_, _| Style::Random);
        let verdict = verdict_of(&signing, Engine::Library);
        for call in [Some(signing), Some(keygen), verdict].into_iter().flatten() {
            let outcome = (compare(place, &call), outputs(&call));
            for at in with_spare_half(call.op, set) {
                let name = call.op.takes()[at].name;
                let end = call.buffers[at].len() - if name == "signature" { SALT } else { 0 };
                for half in 0..16 {
                    let mut other = call.clone();
                    let byte = &mut other.buffers[at][end - 1];
                    *byte = *byte & 15 | half << 4;
                    let place = format!("{place}, {half} in the spare half of {name}");
                    assert_eq!((compare(&place, &other), outputs(&other)), outcome, "{place}");
                    seen += 1;
                }
            }
        }
    });
    assert!(single_case() || seen > 1000, "{seen} spare halves");
}

/// What the library leaves in the buffers that an operation may write.
fn outputs(call: &Call) -> Vec<Vec<u8>> {
    let (_, after) = call.run(Engine::Library);
    let buffers = call.op.takes().iter().zip(after.buffers);
    buffers.filter(|(takes, _)| takes.written).map(|(_, buffer)| buffer).collect()
}

/// The largest sets that page 01 allows, and long thin ones.
#[test]
fn sets_at_the_limits() {
    let seed = 0x5EED_0009;
    let sets = [
        (75, 33, 2),
        (75, 17, 3),
        (75, 10, 4),
        (1, 33, 2),
        (1, 17, 3),
        (1, 10, 4),
        (75, 1, 2),
        (75, 1, 3),
        (75, 1, 4),
        (10, 33, 2),
        (9, 10, 4),
    ];
    for (number, (v, o, l)) in sets.into_iter().enumerate() {
        let set = Set::new(v, o, l);
        let place = format!("test sets_at_the_limits, seed {seed:#x}, set {set}");
        let mut prng = Prng::of_case(seed, number as u64);
        for op in Op::ALL {
            let call = valid_call(&mut prng, op, set, |_, _| Style::Random);
            compare(&place, &call);
        }
    }
}

/// One style for all buffers, and each buffer alone of another style, for sets of every l.
#[test]
fn every_style_of_contents() {
    let seed = 0x5EED_000A;
    let place = format!("test every_style_of_contents, seed {seed:#x}");
    let mut prng = Prng::new(seed);
    for set in [(1, 1, 2), (2, 1, 3), (1, 2, 4), (3, 2, 2), (2, 3, 3), (3, 2, 4)] {
        let set = Set::new(set.0, set.1, set.2);
        for op in Op::ALL {
            for style in Style::ALL {
                for other in op.takes() {
                    let call = valid_call(&mut prng, op, set, |_, name| {
                        if name == other.name { style } else { Style::Random }
                    });
                    compare(&format!("{place}, {} {style:?}", other.name), &call);
                }
                let call = valid_call(&mut prng, op, set, |_, _| style);
                compare(&format!("{place}, all {style:?}"), &call);
            }
        }
    }
}
