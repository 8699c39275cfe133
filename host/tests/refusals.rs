//! Refusals: each alone, all together, in page 01's order, at every limit and beyond.

mod common;

use common::{Call, Op, Style, compare, expected_refusal, fill, valid_call};
use snova_host::answer::Answer;
use snova_host::prng::Prng;
use snova_host::set::{SALT, Set};

/// Every subset of an operation's buffers made wrong at once, in several ways.
#[test]
fn every_subset_of_wrong_lengths() {
    let mut prng = Prng::new(0x5EED_0201);
    for set in [Set::new(1, 1, 2), Set::new(2, 1, 3), Set::new(1, 2, 4)] {
        for op in Op::ALL {
            for wrong in 0..1u32 << op.takes().len() {
                for change in Change::ALL {
                    let mut call = valid_call(&mut prng, op, set, |_, _| Style::Random);
                    for (at, buffer) in call.buffers.iter_mut().enumerate() {
                        if wrong >> at & 1 == 1 {
                            let length = change.apply(buffer.len());
                            *buffer = fill(&mut prng, Style::Random, length);
                        }
                    }
                    let place = format!("{set} {op:?}: subset {wrong:#b} {change:?}");
                    let answer = compare(&place, &call);
                    assert_eq!(answer.is_refusal(), wrong != 0, "{place}");
                }
            }
        }
    }
}

#[derive(Clone, Copy, Debug)]
enum Change {
    OneLess,
    OneMore,
    Empty,
    Double,
}

impl Change {
    const ALL: [Change; 4] = [Change::OneLess, Change::OneMore, Change::Empty, Change::Double];

    fn apply(self, length: usize) -> usize {
        match self {
            Change::OneLess => length - 1,
            Change::OneMore => length + 1,
            Change::Empty => 0,
            Change::Double => 2 * length,
        }
    }
}

/// Every buffer of the nine sets and of some small ones, one byte less and one byte more.
#[test]
fn each_buffer_off_by_one() {
    let mut prng = Prng::new(0x5EED_0202);
    let small = [(1, 1, 2), (1, 1, 3), (1, 1, 4), (2, 3, 3), (3, 1, 3)];
    let small = small.into_iter().map(|(v, o, l)| Set::new(v, o, l));
    for set in small.chain(snova_host::set::ROUND_2) {
        for op in Op::ALL {
            let call = valid_call(&mut prng, op, set, |_, _| Style::Zero);
            for (at, takes) in op.takes().iter().enumerate() {
                for length in [call.buffers[at].len() - 1, call.buffers[at].len() + 1] {
                    let mut call = call.clone();
                    call.buffers[at] = fill(&mut prng, Style::Random, length);
                    let place = format!("{set} {op:?}: {} of {length} bytes", takes.name);
                    assert_eq!(compare(&place, &call), takes.refusal, "{place}");
                }
            }
        }
    }
}

/// The lengths that page 01's formulas give any three numbers, with sums and products modulo 2^64:
/// a refused set must be refused even where every length fits it.
fn formula(set: Set, name: &str) -> usize {
    let Set { v, o, l } = set;
    let mul = |a: usize, b: usize| a.wrapping_mul(b);
    let block = mul(l, l);
    let unknowns = mul(o, block);
    let packed = |elements: usize| elements / 2 + elements % 2;
    match name {
        "public" => packed(mul(unknowns, mul(v, v).wrapping_add(mul(2, mul(v, o))))),
        "abq" => packed(mul(mul(o, block.wrapping_add(l)), mul(2, block.wrapping_add(l)))),
        "private" => packed(mul(mul(v, o), l)),
        "vinegar" => packed(mul(v, block)),
        "target" => packed(unknowns),
        "salt" => SALT,
        "key" => packed(mul(mul(o, o), unknowns)),
        "work" => mul(unknowns, unknowns.wrapping_add(1)).wrapping_add(mul(3, mul(v, unknowns))),
        _ => packed(mul(v.wrapping_add(o), block)).wrapping_add(SALT),
    }
}

/// A call with the formula's lengths, or nothing where one of these is above `longest`.
fn by_formula(prng: &mut Prng, op: Op, set: Set, longest: usize) -> Option<Call> {
    let lengths: Vec<usize> = op.takes().iter().map(|takes| formula(set, takes.name)).collect();
    if lengths.iter().any(|&length| length > longest) {
        return None;
    }
    let buffers = lengths.into_iter().map(|length| fill(prng, Style::Random, length)).collect();
    Some(Call { op, set, buffers })
}

/// The formula of this file agrees with the host's lengths, so the refused sets below are refused
/// for their numbers alone.
#[test]
fn the_formula_is_the_table() {
    for l in 2..=4 {
        for o in 1..=160 / (l * l) {
            for v in 1..=75 {
                let set = Set::new(v, o, l);
                let Some(exact) = set.lengths() else { continue };
                for takes in Op::ALL.iter().flat_map(|op| op.takes()) {
                    assert_eq!(formula(set, takes.name), (takes.exact)(&exact), "{set}");
                }
            }
        }
    }
}

/// Every set around the limits: the salt's status with the right length, one less and one more.
#[test]
fn every_set_around_the_limits() {
    let mut allowed = 0;
    for l in 0..=6 {
        for o in 0..=42 {
            for v in 0..=77 {
                let set = Set::new(v, o, l);
                let inside = (1..=75).contains(&v)
                    && (1..=33).contains(&o)
                    && (2..=4).contains(&l)
                    && o * l * l <= 160;
                allowed += usize::from(inside);
                let length = formula(set, "signature");
                let status = |length: usize| {
                    let buffers = vec![vec![7; length]];
                    compare("every_set_around_the_limits", &Call { op: Op::Salt, set, buffers })
                };
                let (right, wrong) = if inside { (0, 18) } else { (10, 10) };
                assert_eq!(status(length), Answer(right), "{set}");
                assert_eq!(status(length - 1), Answer(wrong), "{set}");
                assert_eq!(status(length + 1), Answer(wrong), "{set}");
            }
        }
    }
    assert_eq!(allowed, 75 * (33 + 17 + 10));
}

/// Just outside each limit, with buffers of the lengths that the formulas give.
#[test]
fn just_outside_each_limit() {
    let mut prng = Prng::new(0x5EED_0203);
    let sets = [
        (0, 5, 4),
        (76, 1, 2),
        (1, 0, 2),
        (1, 34, 2),
        (2, 40, 2),
        (2, 41, 2),
        (1, 18, 3),
        (1, 11, 4),
        (33, 33, 4),
        (3, 33, 3),
        (3, 2, 0),
        (3, 2, 1),
        (3, 2, 5),
        (2, 2, 6),
        (0, 0, 0),
        (0, 0, 2),
        (76, 34, 5),
    ];
    for (v, o, l) in sets {
        let set = Set::new(v, o, l);
        for op in Op::ALL {
            let place = format!("{set} {op:?}");
            let call = by_formula(&mut prng, op, set, usize::MAX).expect("a call");
            assert_eq!(compare(&place, &call), Answer(10), "{place}");
        }
    }
}

/// Numbers near 2^64 and numbers whose products come round to small ones.
#[test]
fn numbers_near_two_to_the_64() {
    let mut prng = Prng::new(0x5EED_0204);
    let large = [
        usize::MAX,
        usize::MAX - 1,
        usize::MAX - 23,
        1 << 63,
        (1 << 63) + 1,
        1 << 62,
        (1 << 62) + 5,
        (1 << 60) + 1,
        1 << 60,
        1 << 32,
        (1 << 32) + 2,
        (1 << 32) + 24,
        0xAAAA_AAAA_AAAA_AAAB,
        256 + 24,
        65536 + 5,
    ];
    let numbers: Vec<usize> = large.into_iter().chain([1, 2, 4, 24]).collect();
    for &v in &numbers {
        for &o in &numbers {
            for &l in &numbers {
                let set = Set::new(v, o, l);
                for op in Op::ALL {
                    let call = by_formula(&mut prng, op, set, 4096).unwrap_or_else(|| Call {
                        op,
                        set,
                        buffers: op.takes().iter().map(|_| prng.bytes(3)).collect(),
                    });
                    let expected = expected_refusal(&call);
                    if !set.allowed() {
                        assert_eq!(expected, Some(Answer(10)));
                        assert_eq!(compare("numbers_near_two_to_the_64", &call), Answer(10));
                    }
                }
            }
        }
    }
}
