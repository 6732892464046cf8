//! Runs the comparison: `compare [--format F] [--cases N] [--seed S] [--case NUMBER]`.

#![forbid(unsafe_code)]

use scp_compare::ask::{Ask, Case};
use scp_compare::count::Count;
use scp_compare::shrink::{dump, smallest};
use scp_compare::{cases, dsk_cases};
use std::process::ExitCode;
use std::sync::atomic::{AtomicBool, AtomicU64, Ordering};
use std::thread;

const USAGE: &str = "usage: compare [--format F] [--cases N] [--seed S] [--case NUMBER]
  --format F     only this format, scp or dsk (default: one after the other)
  --cases N      how many cases of a format (default 240000 of scp, 160000 of dsk); from 10000 on, a number of refusal that never came up
                 is a failure, in scp by each edition
  --seed S       the seed (default 1)
  --case NUMBER  only this case";

/// From so many cases on, each number of refusal has to have come up.
const ENOUGH: u64 = 10_000;

struct Options {
    format: Option<String>,
    cases: Option<u64>,
    seed: u64,
    only: Option<u64>,
}

/// A format: its name, how many cases it has where nobody says, and its case of a seed and a number.
struct Format<Q> {
    name: &'static str,
    cases: u64,
    case: fn(u64, u64) -> Case<Q>,
}

fn main() -> ExitCode {
    let options = match options(std::env::args().skip(1)) {
        Ok(options) => options,
        Err(message) => {
            eprintln!("compare: {message}\n{USAGE}");
            return ExitCode::from(2);
        }
    };
    let scp = agrees(&options, &Format { name: "scp", cases: 240_000, case: cases::case });
    let dsk = agrees(&options, &Format { name: "dsk", cases: 160_000, case: dsk_cases::case });
    ExitCode::from(u8::from(!(scp && dsk)))
}

fn options(mut words: impl Iterator<Item = String>) -> Result<Options, String> {
    let mut options = Options { format: None, cases: None, seed: 1, only: None };
    while let Some(word) = words.next() {
        let value = words.next().ok_or(format!("{word} needs a value"))?;
        let number = || value.parse().map_err(|_| format!("{value} is not a number"));
        match word.as_str() {
            "--format" if value == "scp" || value == "dsk" => options.format = Some(value),
            "--format" => return Err(format!("{value} is not a format")),
            "--cases" => options.cases = Some(number()?),
            "--seed" => options.seed = number()?,
            "--case" => options.only = Some(number()?),
            _ => return Err(format!("{word} is not an option")),
        }
    }
    Ok(options)
}

/// Compares one format, unless another is asked for, and says how that went.
fn agrees<Q: Ask>(options: &Options, format: &Format<Q>) -> bool {
    if options.format.as_ref().is_some_and(|name| name != format.name) {
        return true;
    }
    match run(options, format) {
        Ok(count) => report(options, format, &count),
        Err(failure) => {
            print!("{failure}");
            false
        }
    }
}

impl Options {
    /// How many cases of a format there are to be.
    fn cases<Q>(&self, format: &Format<Q>) -> u64 {
        self.cases.unwrap_or(format.cases)
    }
}

/// Runs all cases on all processors, up to the first difference.
fn run<Q: Ask>(options: &Options, format: &Format<Q>) -> Result<Count, String> {
    if let Some(number) = options.only {
        return one(format, options.seed, number);
    }
    let (next, stop) = (AtomicU64::new(0), AtomicBool::new(false));
    let work = || {
        let mut count = Count::new(Q::KINDS);
        while !stop.load(Ordering::Relaxed) {
            let number = next.fetch_add(1, Ordering::Relaxed);
            if number >= options.cases(format) {
                break;
            }
            match one(format, options.seed, number) {
                Ok(more) => count.add(&more),
                Err(failure) => {
                    stop.store(true, Ordering::Relaxed);
                    return Err(failure);
                }
            }
        }
        Ok(count)
    };
    let threads = thread::available_parallelism().map_or(1, usize::from);
    let results: Vec<Result<Count, String>> = thread::scope(|scope| {
        let workers: Vec<_> = (0..threads).map(|_| scope.spawn(work)).collect();
        workers.into_iter().map(|worker| worker.join().unwrap_or(Err("a worker panicked\n".to_string()))).collect()
    });
    let mut total = Count::new(Q::KINDS);
    for result in results {
        total.add(&result?);
    }
    Ok(total)
}

/// Puts the questions of one case to both; tells of a difference with a minimal input.
fn one<Q: Ask>(format: &Format<Q>, seed: u64, number: u64) -> Result<Count, String> {
    let case = (format.case)(seed, number);
    let mut count = Count::new(Q::KINDS);
    for question in &case.questions {
        match question.compare(&case.bytes) {
            Ok(agreed) => question.counted(&case.bytes, &agreed).into_iter().for_each(|(kind, number)| count.note(kind, number)),
            Err(difference) => {
                let (bytes, smaller) = smallest(&case.bytes, question);
                let now = smaller.compare(&bytes).err().unwrap_or(difference);
                let name = format.name;
                return Err(format!(
                    "case {number} of seed {seed} (compare --format {name} --seed {seed} --case {number}): {smaller:?}\n\
                     {}: wanted is {}, the library has {}\n{}",
                    now.what,
                    now.wanted,
                    now.library,
                    dump(&bytes)
                ));
            }
        }
    }
    Ok(count)
}

/// Says what was compared; false where so many cases never met a number of refusal, or one met a number that its call never gives.
fn report<Q>(options: &Options, format: &Format<Q>, count: &Count) -> bool {
    let cases = if options.only.is_some() { 1 } else { options.cases(format) };
    println!("compare: {}, seed {}, {cases} cases: library and reader agree\n{count}", format.name, options.seed);
    let missing = if cases >= ENOUGH { count.missing() } else { Vec::new() };
    let faults = [missing, count.wrong()].concat();
    for line in &faults {
        println!("compare: {}: {line}", format.name);
    }
    faults.is_empty()
}
