//! Runs generated cases on the source and on the archive.

use cases::{FAMILIES, Family};
use compare::call::Caller;
use compare::options::{number, pairs};
use compare::shrink::{show, shrink};
use compare::{Verdict, compare};
use std::collections::BTreeMap;
use std::process::ExitCode;
use std::thread;

const USAGE: &str = "usage: compare --seed S --count N [--first 0] [--tokens 40] [--jobs 1] \
                     [--family NAME]";

/// Differences that are shown; of more than these only the count is.
const SHOWN: usize = 5;

#[derive(Clone, Copy)]
struct Options {
    seed: u64,
    count: u64,
    first: u64,
    tokens: u64,
    jobs: u64,
    family: Option<Family>,
}

fn options() -> Result<Options, String> {
    let names = [
        "--seed", "--count", "--first", "--tokens", "--jobs", "--family",
    ];
    let pairs = pairs(std::env::args().skip(1), &names)?;
    let family = pairs.get("--family").map(|name| {
        let names: Vec<&str> = FAMILIES.iter().map(|it| it.1).collect();
        cases::family(name).ok_or_else(|| format!("--family is one of {}", names.join(" ")))
    });
    let ret = Options {
        seed: number(&pairs, "--seed", None)?,
        count: number(&pairs, "--count", None)?,
        first: number(&pairs, "--first", Some(0))?,
        tokens: number(&pairs, "--tokens", Some(40))?,
        jobs: number(&pairs, "--jobs", Some(1))?,
        family: family.transpose()?,
    };
    if ret.tokens > 4000 || !(1..=64).contains(&ret.jobs) || ret.count == 0 {
        return Err("--count is at least 1, --tokens at most 4000, --jobs 1 to 64".to_owned());
    }
    Ok(ret)
}

/// What one job found.
#[derive(Default)]
struct Tally {
    answers: BTreeMap<u8, u64>,
    differ: u64,
    untried: u64,
    shown: Vec<String>,
}

impl Tally {
    fn add(&mut self, other: Tally) {
        for (answer, count) in other.answers {
            *self.answers.entry(answer).or_default() += count;
        }
        self.differ += other.differ;
        self.untried += other.untried;
        self.shown.extend(other.shown);
    }

    fn show(&mut self, line: String) {
        if self.shown.len() < SHOWN {
            self.shown.push(line);
        }
    }
}

/// Every so many cases, from this one on.
fn run(options: Options, job: u64) -> Tally {
    let mut ret = Tally::default();
    let mut caller = Caller::default();
    for index in (options.first + job..options.first + options.count).step_by(options.jobs as usize)
    {
        let (_, case) = cases::make(options.seed, index, options.tokens as usize, options.family);
        let mut rng = cases::rng::Rng::new(options.seed, !index);
        match compare(&mut caller, &case, &mut rng) {
            Verdict::Same(answer) => *ret.answers.entry(answer).or_default() += 1,
            Verdict::Untried(why) => {
                ret.untried += 1;
                ret.show(format!("case {index} has no outcome: {why}"));
            }
            Verdict::Differs(what) => {
                ret.differ += 1;
                let small = shrink(&mut caller, &case, &mut rng);
                let small = show(&small);
                ret.show(format!("case {index} differs: {what}; smaller: {small}"));
            }
        }
    }
    ret
}

/// Runs the jobs, each on a thread with a stack for calls.
fn run_all(options: Options) -> Tally {
    let mut ret = Tally::default();
    thread::scope(|scope| {
        let jobs = (0..options.jobs)
            .map(|job| scope.spawn(move || sml_reader::with_stack(|_| run(options, job))));
        for job in jobs.collect::<Vec<_>>() {
            ret.add(job.join().expect("a job that ends"));
        }
    });
    ret
}

fn main() -> ExitCode {
    let options = match options() {
        Ok(options) => options,
        Err(message) => {
            eprintln!("compare: {message}\n{USAGE}");
            return ExitCode::from(2);
        }
    };
    let tally = run_all(options);
    let answers = tally.answers.iter();
    let answers = answers.map(|(answer, count)| format!("answer {answer}: {count}"));
    for line in answers.chain(tally.shown) {
        println!("{line}");
    }
    if tally.untried > 0 {
        println!("{} without an outcome", tally.untried);
    }
    println!("{} cases, {} differ", options.count, tally.differ);
    match tally.differ + tally.untried {
        0 => ExitCode::SUCCESS,
        _ => ExitCode::FAILURE,
    }
}
