//! Measures the proved library and the independent model on the same buffers.

use crate::answer::Answer;
use crate::clock::thread_time;
use crate::engine::Engine;
use crate::lent::{KeyStreams, SigningStreams, VerdictStreams};
use crate::prng::Prng;
use crate::scheme::{Scheme, Seeds};
use crate::set::Set;
use crate::streams::{self, Expansion};
use std::fmt::{self, Write};
use std::str::FromStr;
use std::time::Duration;

#[derive(Clone, Copy, PartialEq, Eq, Debug)]
pub enum Operation {
    Keygen,
    Sign,
    Verify,
}

impl Operation {
    pub const ALL: [Operation; 3] = [Operation::Keygen, Operation::Sign, Operation::Verify];
}

/// The medians of one operation.
#[derive(Clone, Copy, Debug)]
pub struct Times {
    pub library: Duration,
    pub model: Duration,
}

/// One line of the table.
pub struct Line {
    pub set: Set,
    pub operation: Operation,
    pub times: Times,
}

/// All buffers of one set, allocated once and used by every run.
pub struct Bench {
    set: Set,
    public: Vec<u8>,
    abq: Vec<u8>,
    private: Vec<u8>,
    vinegar: Vec<u8>,
    target: Vec<u8>,
    salt: [u8; 16],
    work: Vec<u8>,
    key: Vec<u8>,
    signature: Vec<u8>,
}

impl Bench {
    /// Streams from a fixed seed, with a vinegar that gives a signature, and `engine`'s key and
    /// signature. A profiler that counts one engine's calls wants the other one here.
    pub fn prepare(set: Set, engine: Engine) -> Result<Bench, Answer> {
        let scheme = Scheme::new(set, Expansion::Aes, engine)?;
        let exact = scheme.exact;
        let mut prng = Prng::new(0xBE7C);
        let seeds = Seeds::from_bytes(&prng.bytes(Seeds::BYTES).try_into().expect("48 bytes"));
        let salt = prng.bytes(16).try_into().expect("16 bytes");
        let digest = streams::digest(b"bench");
        let lent = scheme.public_streams(&seeds.public);
        let signed = scheme.sign(&seeds, &digest, &salt)?;
        Ok(Bench {
            set,
            public: lent.public,
            abq: lent.abq,
            private: streams::private(&exact, &seeds.private),
            vinegar: streams::vinegar(&exact, &seeds.private, &digest, &salt, signed.tries),
            target: streams::target(&exact, &seeds.public, &digest, &salt),
            salt,
            work: vec![0; exact.work],
            key: scheme.keygen(&seeds)?,
            signature: signed.signature,
        })
    }

    /// One run. It ends with 0, or the benchmark itself is wrong.
    pub fn run(&mut self, operation: Operation, engine: Engine) {
        let answer = match operation {
            Operation::Keygen => {
                let streams = KeyStreams { public: &self.public, private: &self.private };
                engine.keygen(self.set, &streams, &mut self.key)
            }
            Operation::Sign => {
                let streams = SigningStreams {
                    public: &self.public,
                    abq: &self.abq,
                    private: &self.private,
                    vinegar: &self.vinegar,
                    target: &self.target,
                    salt: &self.salt,
                };
                engine.sign(self.set, &streams, &mut self.work, &mut self.signature)
            }
            Operation::Verify => {
                let streams = VerdictStreams {
                    public: &self.public,
                    abq: &self.abq,
                    target: &self.target,
                    key: &self.key,
                    signature: &self.signature,
                };
                engine.verify(self.set, &streams)
            }
        };
        assert_eq!(answer, Answer::DONE, "{operation} of {} by the {engine}", self.set);
    }

    /// One run, and what it leaves in key and signature.
    fn written(&mut self, operation: Operation, engine: Engine) -> [Vec<u8>; 2] {
        match operation {
            Operation::Keygen => self.key.fill(0xA5),
            Operation::Sign => self.signature.fill(0xA5),
            Operation::Verify => {}
        }
        self.run(operation, engine);
        [self.key.clone(), self.signature.clone()]
    }

    /// Medians of `runs` runs of each engine, by turns, after one run of each that does not count,
    /// and in which both must write the same bytes.
    pub fn measure(&mut self, operation: Operation, runs: usize) -> Times {
        let mut times = [Vec::new(), Vec::new()];
        let [by_library, by_model] = Engine::BOTH.map(|engine| self.written(operation, engine));
        assert!(by_library == by_model, "{operation} of {}: the two differ", self.set);
        for _ in 0..runs {
            for (engine, times) in Engine::BOTH.into_iter().zip(&mut times) {
                let start = thread_time();
                self.run(operation, engine);
                times.push(thread_time() - start);
            }
        }
        let [library, model] = times.map(median);
        Times { library, model }
    }
}

fn median(mut times: Vec<Duration>) -> Duration {
    times.sort();
    times[times.len() / 2]
}

/// What was measured, and the state of the buffers.
pub fn conditions(runs: usize) -> String {
    let first =
        format!("Medians of {runs} runs in one process, library and model by turns, after one");
    let last = format!("the two calls. Hashing is not measured. Processor: {}.", processor());
    let lines = [
        &first[..],
        "run of each that does not count and in which both write the same bytes. Buffers: allocated",
        "once for a set and used by every run, so caches and pages are warm; streams made from fixed",
        "seeds beforehand; work area zero before and after each run; outputs written over. Times are",
        "processor time of the thread, so that being interrupted on a busy machine counts for neither of",
        &last,
    ];
    lines.join("\n")
}

fn processor() -> String {
    let text = std::fs::read_to_string("/proc/cpuinfo").unwrap_or_default();
    let line = text.lines().find(|line| line.starts_with("model name"));
    let name = line.and_then(|line| line.split_once(':')).map(|(_, name)| name.trim());
    name.unwrap_or("unknown").to_string()
}

fn milliseconds(time: Duration) -> f64 {
    time.as_secs_f64() * 1e3
}

/// How many times as long the model takes.
fn ratio(times: &Times) -> f64 {
    times.model.as_secs_f64() / times.library.as_secs_f64()
}

pub fn text(lines: &[Line]) -> String {
    let mut text = format!(
        "{:<12}{:<10}{:>14}{:>14}{:>18}\n",
        "set", "operation", "library (ms)", "model (ms)", "model / library"
    );
    for Line { set, operation, times } in lines {
        let (library, model) = (milliseconds(times.library), milliseconds(times.model));
        let (set, operation, ratio) = (set.to_string(), operation.to_string(), ratio(times));
        writeln!(text, "{set:<12}{operation:<10}{library:>14.3}{model:>14.3}{ratio:>18.2}")
            .expect("a string takes all");
    }
    text
}

pub fn markdown(lines: &[Line]) -> String {
    let mut text = String::from(
        "| set | operation | library (ms) | model (ms) | model / library |\n\
         |---|---|---:|---:|---:|\n",
    );
    for Line { set, operation, times } in lines {
        let (library, model) = (milliseconds(times.library), milliseconds(times.model));
        let ratio = ratio(times);
        writeln!(text, "| {set} | {operation} | {library:.3} | {model:.3} | {ratio:.2} |")
            .expect("a string takes all");
    }
    text
}

impl fmt::Display for Operation {
    fn fmt(&self, f: &mut fmt::Formatter) -> fmt::Result {
        f.write_str(match self {
            Operation::Keygen => "keygen",
            Operation::Sign => "sign",
            Operation::Verify => "verify",
        })
    }
}

impl FromStr for Operation {
    type Err = String;

    fn from_str(text: &str) -> Result<Operation, String> {
        match Operation::ALL.into_iter().find(|operation| operation.to_string() == text) {
            Some(operation) => Ok(operation),
            None => Err(format!("'{text}' is none of keygen, sign, verify")),
        }
    }
}
