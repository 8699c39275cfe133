//! Calls of the library and of the model on the same buffers, and what page 01 says of any call.
#![allow(dead_code, unused_imports)]

mod cases;
mod fill;
pub mod guard;

pub use cases::{cases, single_case};
pub use fill::{Style, damage, fill, random_set, valid_call, verdict_of};

use guard::Guarded;
use snova_host::answer::Answer;
use snova_host::engine::Engine;
use snova_host::hex;
use snova_host::lent::{KeyStreams, SigningStreams, VerdictStreams};
use snova_host::set::{Lengths, SALT, Set};

#[derive(Clone, Copy, PartialEq, Eq, Debug)]
pub enum Op {
    Keygen,
    Sign,
    Verify,
    Salt,
}

/// One buffer that an operation takes: its name, the number that refuses its length, its exact
/// length, and whether the operation may write it.
pub struct Takes {
    pub name: &'static str,
    pub refusal: Answer,
    pub exact: fn(&Lengths) -> usize,
    pub written: bool,
}

const fn reads(name: &'static str, refusal: u32, exact: fn(&Lengths) -> usize) -> Takes {
    Takes { name, refusal: Answer(refusal), exact, written: false }
}

const fn writes(name: &'static str, refusal: u32, exact: fn(&Lengths) -> usize) -> Takes {
    Takes { name, refusal: Answer(refusal), exact, written: true }
}

static KEYGEN: [Takes; 3] = [
    reads("public", 11, |exact| exact.public),
    reads("private", 13, |exact| exact.private),
    writes("key", 20, |exact| exact.key),
];

static SIGN: [Takes; 8] = [
    reads("public", 11, |exact| exact.public),
    reads("abq", 12, |exact| exact.abq),
    reads("private", 13, |exact| exact.private),
    reads("vinegar", 14, |exact| exact.vinegar),
    reads("target", 15, |exact| exact.target),
    reads("salt", 17, |_| SALT),
    writes("work", 19, |exact| exact.work),
    writes("signature", 20, |exact| exact.signature),
];

static VERIFY: [Takes; 5] = [
    reads("public", 11, |exact| exact.public),
    reads("abq", 12, |exact| exact.abq),
    reads("target", 15, |exact| exact.target),
    reads("key", 16, |exact| exact.key),
    reads("signature", 18, |exact| exact.signature),
];

static SALT_OF: [Takes; 1] = [reads("signature", 18, |exact| exact.signature)];

impl Op {
    pub const ALL: [Op; 4] = [Op::Keygen, Op::Sign, Op::Verify, Op::Salt];

    /// The buffers in the order of the C interface.
    pub fn takes(self) -> &'static [Takes] {
        match self {
            Op::Keygen => &KEYGEN,
            Op::Sign => &SIGN,
            Op::Verify => &VERIFY,
            Op::Salt => &SALT_OF,
        }
    }

    /// The place of the buffer with this name.
    pub fn at(self, name: &str) -> usize {
        self.takes().iter().position(|takes| takes.name == name).expect("a buffer's name")
    }

    /// The answers that are left once no length is refused.
    fn outcomes(self) -> &'static [u32] {
        match self {
            Op::Keygen | Op::Salt => &[0],
            Op::Sign => &[0, 2, 21],
            Op::Verify => &[0, 1, 21],
        }
    }
}

/// An operation with the buffers that it is lent.
#[derive(Clone)]
pub struct Call {
    pub op: Op,
    pub set: Set,
    pub buffers: Vec<Vec<u8>>,
}

/// Bytes on either side of each lent buffer, which nobody may touch.
const GUARD: usize = 24;
const GUARD_BYTE: u8 = guard::BESIDE;

/// The answer, and every buffer afterwards, guards included.
#[derive(Clone, PartialEq, Eq)]
pub struct Outcome {
    pub answer: Answer,
    after: Vec<Vec<u8>>,
}

impl Outcome {
    /// The lent part of a buffer afterwards.
    pub fn lent(&mut self, at: usize) -> &mut [u8] {
        let end = self.after[at].len() - GUARD;
        &mut self.after[at][GUARD..end]
    }

    /// A buffer afterwards, with the bytes on either side of it.
    pub fn whole(&mut self, at: usize) -> &mut Vec<u8> {
        &mut self.after[at]
    }
}

impl Call {
    pub fn buffer(&self, name: &str) -> &[u8] {
        &self.buffers[self.op.at(name)]
    }

    pub fn buffer_mut(&mut self, name: &str) -> &mut Vec<u8> {
        let at = self.op.at(name);
        &mut self.buffers[at]
    }

    /// Runs the call on copies; the answer and the buffers afterwards.
    pub fn run(&self, engine: Engine) -> (Answer, Call) {
        let Outcome { answer, after } = outcome(self, engine);
        let bare = |whole: &Vec<u8>| whole[GUARD..whole.len() - GUARD].to_vec();
        (answer, Call { op: self.op, set: self.set, buffers: after.iter().map(bare).collect() })
    }

    /// What a reader needs to see of a call that went wrong.
    fn describe(&self) -> String {
        let mut text = format!("{:?} with set {}", self.op, self.set);
        for (takes, buffer) in self.op.takes().iter().zip(&self.buffers) {
            text += &format!("\n  {} of {} bytes", takes.name, buffer.len());
            if buffer.len() <= 64 {
                text += &format!(": {}", hex::encode(buffer));
            }
        }
        text
    }
}

fn guarded(buffer: &[u8]) -> Vec<u8> {
    let guard = [GUARD_BYTE; GUARD];
    [&guard[..], buffer, &guard[..]].concat()
}

/// The bytes on either side of a lent buffer.
fn guards(whole: &[u8]) -> (&[u8], &[u8]) {
    (&whole[..GUARD], &whole[whole.len() - GUARD..])
}

/// What a call does. The library's buffers end at closed pages, or, in one call out of four, begin
/// at them, so that it is seen where it reads outside them.
pub fn outcome(call: &Call, engine: Engine) -> Outcome {
    if engine == Engine::Library { on_closed_pages(call) } else { on_copies(call, engine) }
}

fn on_closed_pages(call: &Call) -> Outcome {
    let first = call.buffers.iter().flatten().next();
    let end = first.is_none_or(|byte| byte % 4 != 3);
    let mut lent: Vec<Guarded> =
        call.buffers.iter().map(|buffer| Guarded::at(buffer, end)).collect();
    let slices = lent.iter_mut().map(|buffer| &mut buffer[..]).collect();
    let answer = perform(call.op, call.set, slices, Engine::Library);
    // A byte beside the buffer that changed is told as one of the bytes around it.
    let around = |buffer: &Guarded| {
        let mut whole = guarded(buffer);
        whole[0] ^= u8::from(!buffer.intact());
        whole
    };
    Outcome { answer, after: lent.iter().map(around).collect() }
}

fn on_copies(call: &Call, engine: Engine) -> Outcome {
    let mut after: Vec<Vec<u8>> = call.buffers.iter().map(|buffer| guarded(buffer)).collect();
    let lent: Vec<&mut [u8]> = after
        .iter_mut()
        .map(|whole| {
            let end = whole.len() - GUARD;
            &mut whole[GUARD..end]
        })
        .collect();
    let answer = perform(call.op, call.set, lent, engine);
    Outcome { answer, after }
}

fn perform(op: Op, set: Set, lent: Vec<&mut [u8]>, engine: Engine) -> Answer {
    match op {
        Op::Keygen => {
            let [public, private, key] = lent.try_into().expect("three buffers");
            engine.keygen(set, &KeyStreams { public, private }, key)
        }
        Op::Sign => {
            let [public, abq, private, vinegar, target, salt, work, signature] =
                lent.try_into().expect("eight buffers");
            let streams = SigningStreams { public, abq, private, vinegar, target, salt };
            engine.sign(set, &streams, work, signature)
        }
        Op::Verify => {
            let [public, abq, target, key, signature] = lent.try_into().expect("five buffers");
            engine.verify(set, &VerdictStreams { public, abq, target, key, signature })
        }
        Op::Salt => {
            let [signature] = lent.try_into().expect("one buffer");
            let answer = engine.salt_status(set, signature);
            let from =
                if answer == Answer::DONE { signature.len() - SALT } else { signature.len() };
            assert_eq!(engine.salt(set, signature), &signature[from..], "the salt of {set}");
            answer
        }
    }
}

/// The refusal by set and lengths that page 01's table asks for, stated apart from the model.
pub fn expected_refusal(call: &Call) -> Option<Answer> {
    let Some(exact) = call.set.lengths() else {
        return Some(Answer(10));
    };
    let lent = call.op.takes().iter().zip(&call.buffers);
    let wrong = lent.filter(|(takes, buffer)| buffer.len() != (takes.exact)(&exact));
    wrong.map(|(takes, _)| takes.refusal).min()
}

/// Library and model on the same call, and page 01's rules on what the library did.
pub fn compare(place: &str, call: &Call) -> Answer {
    let library = outcome(call, Engine::Library);
    match judge(call, &library, &outcome(call, Engine::Model)) {
        Ok(()) => library.answer,
        Err(text) => complain(place, call, &text),
    }
}

/// The library alone, where the page says what it answers: page 01's rules on what it did.
pub fn library_alone(place: &str, call: &Call) -> Answer {
    let library = outcome(call, Engine::Library);
    match page_rules(call, &library) {
        Ok(()) => library.answer,
        Err(text) => complain(place, call, &text),
    }
}

/// What went wrong, and how to see it again.
fn complain(place: &str, call: &Call, text: &str) -> ! {
    let thread = std::thread::current();
    let test = thread.name().unwrap_or("the test");
    panic!(
        "{place}\n{}\n{text}\nthe whole test again: cargo test --release {test}",
        call.describe()
    )
}

/// What is wrong with the library's outcome of a call, if anything: beside the model's, or by page
/// 01's rules.
pub fn judge(call: &Call, library: &Outcome, model: &Outcome) -> Result<(), String> {
    if library.answer != model.answer {
        return Err(format!("the library answers {}, the model {}", library.answer, model.answer));
    }
    for (takes, pair) in call.op.takes().iter().zip(library.after.iter().zip(&model.after)) {
        if let Some(at) = first_difference(pair.0, pair.1) {
            return Err(format!(
                "answer {}: byte {} of {} is {:02X} by the library, {:02X} by the model",
                library.answer,
                at as isize - GUARD as isize,
                takes.name,
                pair.0[at],
                pair.1[at]
            ));
        }
    }
    page_rules(call, library)
}

fn first_difference(a: &[u8], b: &[u8]) -> Option<usize> {
    a.iter().zip(b).position(|(a, b)| a != b)
}

/// What page 01 says of every call, whoever computes it.
fn page_rules(call: &Call, outcome: &Outcome) -> Result<(), String> {
    let answer = outcome.answer;
    match expected_refusal(call) {
        Some(refusal) if answer != refusal => {
            return Err(format!("the answer is {answer}, page 01 asks for {refusal}"));
        }
        None if !call.op.outcomes().contains(&answer.number()) => {
            return Err(format!("the answer is {answer}, though no length is wrong"));
        }
        _ => {}
    }
    for (at, takes) in call.op.takes().iter().enumerate() {
        let (before, after) = (guarded(&call.buffers[at]), &outcome.after[at]);
        let may_write = takes.written && !answer.is_refusal();
        let kept = if may_write { guards(&before) == guards(after) } else { before == *after };
        if !kept {
            return Err(format!("answer {answer}: {} was written outside its rule", takes.name));
        }
    }
    if call.op == Op::Sign && !answer.is_refusal() { signing_rules(call, outcome) } else { Ok(()) }
}

/// On 0 and 2 the work area is zero; on 2 the output is as it was; on 0 it ends with the salt.
fn signing_rules(call: &Call, outcome: &Outcome) -> Result<(), String> {
    let after = |name: &str| {
        let whole = &outcome.after[Op::Sign.at(name)];
        whole[GUARD..whole.len() - GUARD].to_vec()
    };
    if after("work").iter().any(|&byte| byte != 0) {
        return Err(format!("answer {}: the work area is not zero", outcome.answer));
    }
    let signature = after("signature");
    if outcome.answer == Answer::REDO && signature != call.buffer("signature") {
        return Err("redo, and the output was written".to_string());
    }
    if outcome.answer == Answer::DONE && !signature.ends_with(call.buffer("salt")) {
        return Err("the signature does not end with the salt".to_string());
    }
    Ok(())
}
