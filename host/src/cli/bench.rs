//! `snova bench`: the proved library against the independent model.

use super::args::{Args, Command, ENGINE, opt, read_set};
use super::failure::Failure;
use super::output;
use super::progress::Progress;
use crate::answer::Answer;
use crate::bench::{self, Bench, Line, Operation};
use crate::engine::Engine;
use crate::set::{ROUND_2, Set};
use std::ffi::OsString;
use std::time::Instant;

pub const COMMAND: Command = Command {
    name: "bench",
    about: "times of the library and of the model, side by side",
    usage: "[SET ..] [--runs NUMBER] [--markdown]\n\
            one SET OPERATION ITERATIONS [--engine NAME]",
    notes: "Without a set: the nine sets. OPERATION is keygen, sign or verify. 'one' repeats one operation\n\
            in one engine, for a profiler; key and signature are made by the other engine beforehand.",
    options: &[
        opt("--runs", "NUMBER", "runs of each, of which the median counts (the default is 9)"),
        opt("--markdown", "", "print a markdown table"),
        ENGINE,
    ],
    run,
};

fn run(args: &Args) -> Result<Answer, Failure> {
    match args.plain() {
        [word, rest @ ..] if word == "one" => one(args, rest),
        [] => table(args, &ROUND_2),
        sets => {
            let sets: Vec<Set> =
                sets.iter().map(|text| read_set(text)).collect::<Result<_, _>>()?;
            table(args, &sets)
        }
    }
}

fn table(args: &Args, sets: &[Set]) -> Result<Answer, Failure> {
    let runs: usize = args.parsed("--runs", 9)?;
    if runs == 0 {
        return Err(Failure::usage("--runs 0: at least one run must be"));
    }
    let mut progress = Progress::new();
    let mut lines = Vec::new();
    for &set in sets {
        progress.say(&format!("snova bench: {set}, making streams"));
        let bench = Bench::prepare(set, Engine::Library);
        let mut bench = bench.map_err(|answer| Failure::answer(answer, set))?;
        for operation in Operation::ALL {
            progress.say(&format!("snova bench: {set} {operation}, {runs} runs of each"));
            lines.push(Line { set, operation, times: bench.measure(operation, runs) });
        }
    }
    drop(progress);
    let table = if args.flag("--markdown") { bench::markdown(&lines) } else { bench::text(&lines) };
    output::print(&format!("{}\n\n{table}", bench::conditions(runs)))?;
    Ok(Answer::DONE)
}

fn one(args: &Args, words: &[OsString]) -> Result<Answer, Failure> {
    let [set, operation, iterations] = words else {
        return Err(Failure::usage("after 'one' stand SET, OPERATION and ITERATIONS"));
    };
    let set = read_set(set)?;
    let operation: Operation = operation
        .to_string_lossy()
        .parse()
        .map_err(|reason| Failure::usage(format!("OPERATION {reason}")))?;
    let iterations = iterations.to_string_lossy();
    let iterations: u32 = iterations
        .parse()
        .map_err(|_| Failure::usage(format!("ITERATIONS '{iterations}' is no number")))?;
    let engine = args.engine()?;
    let other = if engine == Engine::Library { Engine::Model } else { Engine::Library };
    let mut bench = Bench::prepare(set, other).map_err(|answer| Failure::answer(answer, set))?;
    let start = Instant::now();
    for _ in 0..iterations {
        bench.run(operation, engine);
    }
    let each = start.elapsed().as_secs_f64() * 1e3 / f64::from(iterations.max(1));
    output::print(&format!("{set} {operation} {engine}: {iterations} times, {each:.3} ms each\n"))?;
    Ok(Answer::DONE)
}
