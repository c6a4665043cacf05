//! Prints cases with the oracle's outcomes, one for each line.

use cases::{FAMILIES, Family};
use oracle::{Case, Outcome};
use std::collections::BTreeMap;
use std::io::{self, BufWriter, Write};
use std::process::ExitCode;

const USAGE: &str = "usage: cases --seed S --count N [--tokens 40] [--family NAME]";

struct Options {
    seed: u64,
    count: u64,
    tokens: usize,
    family: Option<Family>,
}

/// More tokens than this would leave the room of the records.
const MOST_TOKENS: u64 = 4000;

fn options(mut args: impl Iterator<Item = String>) -> Result<Options, String> {
    let mut seed = None;
    let mut count = None;
    let mut tokens = 40;
    let mut family = None;
    while let Some(name) = args.next() {
        let value = args.next().ok_or(format!("{name} lacks its value"))?;
        match name.as_str() {
            "--seed" => seed = Some(number(&name, &value)?),
            "--count" => count = Some(number(&name, &value)?),
            "--tokens" => tokens = number(&name, &value)?,
            "--family" => family = Some(named(&value)?),
            _ => return Err(format!("no such option: {name}")),
        }
    }
    if tokens > MOST_TOKENS {
        return Err(format!("--tokens is at most {MOST_TOKENS}"));
    }
    Ok(Options {
        seed: seed.ok_or("--seed is wanted")?,
        count: count.ok_or("--count is wanted")?,
        tokens: tokens as usize,
        family,
    })
}

fn number(name: &str, value: &str) -> Result<u64, String> {
    let number = value.parse();
    number.map_err(|_| format!("{name} takes a number, not {value:?}"))
}

fn named(value: &str) -> Result<Family, String> {
    cases::family(value).ok_or_else(|| {
        let names: Vec<&str> = FAMILIES.iter().map(|it| it.1).collect();
        format!("no such family: {value:?}; there are {}", names.join(" "))
    })
}

fn name_of(family: Family) -> &'static str {
    let found = FAMILIES.iter().find(|it| it.0 == family);
    found.map_or("", |it| it.1)
}

fn hex(bytes: &[u8]) -> String {
    const DIGITS: &[u8; 16] = b"0123456789abcdef";
    let digit = |it: u8| char::from(DIGITS[usize::from(it)]);
    let pair = |it: &u8| [digit(it >> 4), digit(it & 15)];
    bytes.iter().flat_map(pair).collect()
}

fn print(out: &mut impl Write, family: Family, case: &Case, outcome: &Outcome) -> io::Result<()> {
    write!(out, "family={} ", name_of(family))?;
    write!(out, "text={} ", hex(&case.text))?;
    write!(out, "records={} ", hex(&case.records))?;
    write!(out, "env={} ", hex(&case.env))?;
    write!(out, "depth={} mode={} ", case.depth, case.mode)?;
    write!(out, "scratch={} nodes={} ", case.scratch, case.nodes)?;
    write!(out, "finds={} final={} ", case.finds, case.fin)?;
    write!(out, "answer={} ", outcome.answer)?;
    write!(out, "onodes={} ", hex(&outcome.nodes))?;
    write!(out, "ofinds={} ", hex(&outcome.finds))?;
    writeln!(out, "oenv={}", hex(&outcome.env))
}

/// Prints the cases and returns how many had no outcome.
fn run(options: &Options) -> io::Result<usize> {
    let mut out = BufWriter::new(io::stdout().lock());
    let mut answers: BTreeMap<u8, usize> = BTreeMap::new();
    let mut families: BTreeMap<Family, usize> = BTreeMap::new();
    let mut troubles = 0;
    for index in 0..options.count {
        let (family, case) = cases::make(options.seed, index, options.tokens, options.family);
        *families.entry(family).or_default() += 1;
        match oracle::read(&case) {
            Ok(outcome) => {
                *answers.entry(outcome.answer).or_default() += 1;
                print(&mut out, family, &case, &outcome)?;
            }
            Err(trouble) => {
                troubles += 1;
                eprintln!("case {index} of seed {}: {trouble:?}", options.seed);
            }
        }
    }
    out.flush()?;
    for (answer, count) in answers {
        eprintln!("answer {answer}: {count}");
    }
    for (family, count) in families {
        eprintln!("family {}: {count}", name_of(family));
    }
    Ok(troubles)
}

fn main() -> ExitCode {
    let options = match options(std::env::args().skip(1)) {
        Ok(options) => options,
        Err(message) => {
            eprintln!("cases: {message}\n{USAGE}");
            return ExitCode::from(2);
        }
    };
    match run(&options) {
        Ok(0) => ExitCode::SUCCESS,
        Ok(troubles) => {
            eprintln!("cases: {troubles} without an outcome");
            ExitCode::FAILURE
        }
        Err(error) => {
            eprintln!("cases: {error}");
            ExitCode::FAILURE
        }
    }
}
