//! Feeds the Rust original and the Rattle library the same inputs. See compare/README.md.
//!
//! usage: compare compare [--quick] [--seed S] [--only NAME] [--record DIR] [--recordings DIR] --exports FILE
//!        compare fic --program FILE [--quick] [--seed S] [--recordings DIR]
//!        compare long [--seed S] [--count N]
//!        compare bench rust|ours|both COUNT

// A function that functions.txt leaves out leaves its helpers without a caller.
#![allow(dead_code)]

mod air;
mod bench;
mod checks;
mod description;
mod lent;
mod long;
mod model;
mod ours;
mod program;
mod random;
mod record;
mod recordings;
mod samples;
mod sender;
mod stores;
mod tally;
mod theirs;

use checks::{CHECKS, Check, Run};
use std::panic::{AssertUnwindSafe, catch_unwind};
use std::path::PathBuf;
use std::process::ExitCode;
use tally::Tally;

const SEED: u64 = 300_401;

/// Past two rounds of a counter of sixteen bits.
const LONG: u64 = 141_000;

/// The words behind the mode.
struct Options {
    run: Run,
    only: Option<String>,
    record: Option<PathBuf>,
    exports: Option<PathBuf>,
    program: Option<PathBuf>,
    count: u64,
}

impl Options {
    fn of(words: &[String]) -> Result<Self, String> {
        let run = Run { quick: false, seed: SEED, recordings: None };
        let mut options = Self { run, only: None, record: None, exports: None, program: None, count: LONG };
        let mut words = words.iter();
        while let Some(word) = words.next() {
            let mut value = || words.next().ok_or(format!("{word} needs a value"));
            match word.as_str() {
                "--quick" => options.run.quick = true,
                "--seed" => options.run.seed = value()?.parse().map_err(|_| "the seed is a number")?,
                "--count" => options.count = value()?.parse().map_err(|_| "the count is a number")?,
                "--recordings" => options.run.recordings = Some(value()?.into()),
                "--only" => options.only = Some(value()?.clone()),
                "--record" => options.record = Some(value()?.into()),
                "--exports" => options.exports = Some(value()?.into()),
                "--program" => options.program = Some(value()?.into()),
                _ => return Err(format!("no such option: {word}")),
            }
        }
        Ok(options)
    }
}

fn main() -> ExitCode {
    let words: Vec<String> = std::env::args().skip(1).collect();
    let (mode, rest) = words.split_first().map_or(("", &[][..]), |(mode, rest)| (mode, rest));
    let answer = match mode {
        "compare" => Options::of(rest).and_then(compare),
        "fic" => Options::of(rest).and_then(fic).map(passed),
        #[cfg(all(with = "set_up", with = "reset", with = "feed_symbol"))]
        "long" => Options::of(rest).and_then(|o| long::run(o.count, &o.run)).map(passed),
        #[cfg(with = "viterbi_decode_state0")]
        "bench" => bench::run(rest).map(|()| ExitCode::SUCCESS),
        _ => Err(format!("no such mode, or nothing in functions.txt for it: {mode}")),
    };
    answer.unwrap_or_else(|why| {
        println!("{why}\n0 passed, 1 failed");
        ExitCode::FAILURE
    })
}

fn passed((): ()) -> ExitCode {
    println!("1 passed, 0 failed");
    ExitCode::SUCCESS
}

fn fic(options: Options) -> Result<(), String> {
    let program = options.program.ok_or("which --program?")?;
    println!("seed {}{}", options.run.seed, if options.run.quick { ", quick" } else { "" });
    program::compare(&program, &options.run).map_err(|why| format!("fic: FAILED with seed {}: {why}", options.run.seed))
}

fn compare(options: Options) -> Result<ExitCode, String> {
    let Options { run, only, .. } = options;
    let chosen: Vec<&Check> = CHECKS.iter().filter(|c| only.as_deref().is_none_or(|name| c.name == name)).collect();
    if chosen.is_empty() {
        return Err(format!("nothing to compare: {}", only.unwrap_or("functions.txt is empty".to_string())));
    }
    println!("seed {}{}", run.seed, if run.quick { ", quick" } else { "" });
    if let Some(folder) = options.record {
        record::all(&folder, &run)?;
    }
    let (mut passed, mut failed) = (0, 0);
    for check in &chosen {
        match judged(check, &run) {
            Verdict::Passed => passed += 1,
            Verdict::Failed => failed += 1,
            Verdict::NotRun => {}
        }
    }
    if only.is_none() {
        failed += left_out(&options.exports.ok_or("which --exports?")?)?;
    }
    if passed + failed == 0 {
        return Err("nothing was compared".to_string());
    }
    println!("{passed} passed, {failed} failed");
    Ok(if failed == 0 { ExitCode::SUCCESS } else { ExitCode::FAILURE })
}

/// How a comparison ended. What could not be run has neither passed nor failed.
enum Verdict {
    Passed,
    Failed,
    NotRun,
}

/// Runs one comparison and prints its line. A panic in it is a failure of it alone.
fn judged(check: &Check, run: &Run) -> Verdict {
    let mut tally = Tally::default();
    let outcome = catch_unwind(AssertUnwindSafe(|| (check.compare)(run, &mut tally)));
    if let (Ok(Ok(())), Some(why)) = (&outcome, tally.not_run) {
        println!("{}: not run, {why}", check.name);
        return Verdict::NotRun;
    }
    let mut line = format!("{}: {} compared", check.name, tally.compared);
    if tally.modelled > 0 {
        line += &format!(", {} held against the model", tally.modelled);
    }
    if tally.listed > 0 {
        line += &format!(", differs as listed: {}", tally.listed);
    }
    if !tally.note.is_empty() {
        line += &format!("; {}", tally.note);
    }
    println!("{line}");
    let why = match outcome {
        Ok(Ok(())) if tally.compared >= check.least => return Verdict::Passed,
        Ok(Ok(())) => format!("at least {} inputs were to be compared", check.least),
        Ok(Err(why)) => why,
        Err(_) => "it panicked, see above".to_string(),
    };
    println!("{}: FAILED with seed {}: {why}", check.name, run.seed);
    Verdict::Failed
}

/// Names in functions.txt without a comparison, and exports of the library without one.
fn left_out(exports: &PathBuf) -> Result<u32, String> {
    let compared = |name: &str| CHECKS.iter().any(|c| c.name == name);
    let mut count = 0;
    let listed = include_str!("../functions.txt").lines().filter(|l| !l.is_empty() && !l.starts_with('#'));
    for name in listed.filter(|name| !compared(name)) {
        println!("{name}: FAILED: functions.txt names it and there is no comparison of that name");
        count += 1;
    }
    let exports = std::fs::read_to_string(exports).map_err(|e| format!("{}: {e}", exports.display()))?;
    for name in exports.lines().filter_map(|l| l.strip_prefix("feltcomet_")).filter(|name| !compared(name)) {
        println!("{name}: FAILED: the library exports it and functions.txt does not name it");
        count += 1;
    }
    Ok(count)
}
