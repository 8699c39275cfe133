//! The comparison itself: faults planted in what the library is taken to have done must be seen.
//!
//! The library's side is played by the model with one fault; the inputs are those of the other
//! tests. A fault that nothing sees would pass in a library, too.

mod common;

use common::{Call, Op, Outcome, Style, judge, outcome, random_set, valid_call, verdict_of};
use snova_host::answer::Answer;
use snova_host::engine::Engine;
use snova_host::prng::Prng;
use snova_host::set::SALT;

/// A fault: what it does to the outcome of a call, knowing the call.
struct Fault {
    name: &'static str,
    op: Op,
    plant: fn(&Call, &mut Outcome),
}

const fn fault(name: &'static str, op: Op, plant: fn(&Call, &mut Outcome)) -> Fault {
    Fault { name, op, plant }
}

/// The bytes of the named buffer from `from` on stay as they were before the call.
fn keep(call: &Call, outcome: &mut Outcome, name: &str, from: usize) {
    let at = call.op.at(name);
    outcome.lent(at)[from..].copy_from_slice(&call.buffers[at][from..]);
}

/// The last element of the named buffer is taken for any value that leads to a better answer.
fn ignore_last(call: &Call, outcome: &mut Outcome, name: &str, elements: usize) {
    let last = elements - 1;
    for value in 0..16 {
        let mut other = call.clone();
        let byte = &mut other.buffer_mut(name)[last / 2];
        let shift = last % 2 * 4;
        *byte = *byte & !(15 << shift) | value << shift;
        outcome.answer = outcome.answer.min(other.run(Engine::Model).0);
    }
}

fn unknowns(call: &Call) -> usize {
    call.set.o * call.set.l * call.set.l
}

static FAULTS: [Fault; 16] = [
    fault("tail of the key unwritten", Op::Keygen, |call, outcome| {
        keep(call, outcome, "key", call.buffer("key").len() - 1);
    }),
    fault("last half byte of the key unwritten", Op::Keygen, |call, outcome| {
        let at = Op::Keygen.at("key");
        let before = call.buffers[at].last().expect("a byte") & 0xF0;
        let byte = outcome.lent(at).last_mut().expect("a byte");
        *byte = *byte & 15 | before;
    }),
    fault("key added to what was there", Op::Keygen, |call, outcome| {
        let at = Op::Keygen.at("key");
        let before = call.buffers[at].iter();
        outcome.lent(at).iter_mut().zip(before).for_each(|(byte, before)| *byte ^= before);
    }),
    fault("a byte behind the key written", Op::Keygen, |_, outcome| {
        let whole = outcome.whole(Op::Keygen.at("key"));
        let at = whole.len() - 24;
        whole[at] = 0;
    }),
    fault("the private stream written", Op::Keygen, |_, outcome| {
        outcome.lent(Op::Keygen.at("private"))[0] ^= 0x10;
    }),
    fault("salt written on redo", Op::Sign, |call, outcome| {
        if outcome.answer == Answer::REDO {
            let signature = outcome.lent(Op::Sign.at("signature"));
            let at = signature.len() - SALT;
            signature[at..].copy_from_slice(call.buffer("salt"));
        }
    }),
    fault("output zero on redo", Op::Sign, |_, outcome| {
        if outcome.answer == Answer::REDO {
            outcome.lent(Op::Sign.at("signature")).fill(0);
        }
    }),
    fault("work area as it was on redo", Op::Sign, |call, outcome| {
        if outcome.answer == Answer::REDO {
            keep(call, outcome, "work", 0);
        }
    }),
    fault("last byte of the work area not wiped", Op::Sign, |call, outcome| {
        keep(call, outcome, "work", call.buffer("work").len() - 1);
    }),
    fault("redo taken for done", Op::Sign, |_, outcome| {
        if outcome.answer == Answer::REDO {
            outcome.answer = Answer::DONE;
        }
    }),
    fault("salt not written", Op::Sign, |call, outcome| {
        keep(call, outcome, "signature", call.buffer("signature").len() - SALT);
    }),
    fault("last element of the target ignored in signing", Op::Sign, |call, outcome| {
        let last = unknowns(call) - 1;
        let mut other = call.clone();
        other.buffer_mut("target")[last / 2] &= if last % 2 == 0 { 0xF0 } else { 0x0F };
        let (_, signed) = other.run(Engine::Model);
        outcome.lent(Op::Sign.at("signature")).copy_from_slice(signed.buffer("signature"));
    }),
    fault("last element of the target ignored", Op::Verify, |call, outcome| {
        ignore_last(call, outcome, "target", unknowns(call));
    }),
    fault("last element of the key ignored", Op::Verify, |call, outcome| {
        ignore_last(call, outcome, "key", call.set.o * call.set.o * unknowns(call));
    }),
    fault("last element of the signature ignored", Op::Verify, |call, outcome| {
        ignore_last(call, outcome, "signature", call.set.n() * call.set.l * call.set.l);
    }),
    fault("the verdict turned round", Op::Verify, |_, outcome| {
        outcome.answer = Answer(1 - outcome.answer.number());
    }),
];

/// Calls as the other tests make them. Every second verdict is on a signature, with one element of
/// target, key or signature changed, at its end as often as elsewhere.
fn calls(op: Op) -> Vec<Call> {
    let mut prng = Prng::new(0x5EED_0601);
    let mut calls = Vec::new();
    while calls.len() < 120 {
        let set = random_set(&mut prng, 3);
        if op != Op::Verify || prng.below(2) == 0 {
            calls.push(valid_call(&mut prng, op, set, |prng, _| Style::any(prng)));
            continue;
        }
        let signing = valid_call(&mut prng, Op::Sign, set, |_, _| Style::Random);
        let Some(mut verdict) = verdict_of(&signing, Engine::Model) else { continue };
        let name = prng.pick(&["target", "key", "signature"]);
        let end = verdict.buffer(name).len() - if name == "signature" { SALT } else { 0 };
        let at = if prng.below(2) == 0 { end - 1 } else { prng.below(end) };
        verdict.buffer_mut(name)[at] ^= 1 << prng.below(8);
        calls.push(verdict);
    }
    calls
}

#[test]
fn every_planted_fault_is_seen() {
    for Fault { name, op, plant } in &FAULTS {
        let mut seen = 0;
        for call in calls(*op) {
            let model = outcome(&call, Engine::Model);
            assert_eq!(judge(&call, &model, &model), Ok(()), "without a fault");
            let mut library = model.clone();
            plant(&call, &mut library);
            seen += usize::from(judge(&call, &library, &model).is_err());
        }
        println!("{name}: seen in {seen} of 120 calls");
        assert!(seen > 0, "{name}: seen in no call");
    }
}

/// A library that reads five bytes past an input ends the run: seen in a process of its own.
#[test]
fn an_over_read_ends_the_run() {
    if std::env::var_os("SNOVA_OVER_READ").is_some() {
        let input = common::guard::Guarded::new(&[1, 2, 3]);
        println!("{}", common::guard::over_read(&input));
        return;
    }
    let output = std::process::Command::new(std::env::current_exe().expect("this test"))
        .args(["--exact", "an_over_read_ends_the_run"])
        .env("SNOVA_OVER_READ", "1")
        .output()
        .expect("it runs");
    let signal = std::os::unix::process::ExitStatusExt::signal(&output.status);
    assert_eq!(signal, Some(11), "{output:?}");
}
