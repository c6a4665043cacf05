//! Reads the same files with the source and with the archive.
//!
//! The source is measured twice: from records to bytes, as the archive reads;
//! and its `get` alone, with tokens and environment made before and the tree
//! left as it is. Instructions are counted by valgrind, which runs this program
//! again and collects inside of one of the three functions:
//!
//! ```text
//! valgrind --tool=callgrind --toggle-collect='bench::once_ours*' bench --once ours --tokens 1000
//! ```

use compare::file::file;
use compare::lent::{Buffers, call};
use compare::options::{number, pairs};
use oracle::Case;
use oracle::here::{Ready, whole};
use sml_reader::{Stack, with_stack};
use std::hint::black_box;
use std::process::{Command, ExitCode};
use std::time::Instant;

const USAGE: &str = "usage: bench [--seed 1] [--rounds 200] [--instructions 0|1] [--fixities 0|1]\n\
                     \x20      bench --once ours|whole|get --tokens N [--changes N] [--seed 1]";

const SIZES: [usize; 3] = [1000, 4000, 13_000];

/// The sizes of files that change fixities, and how often they do.
const CHANGED_SIZES: [usize; 2] = [4000, 13_000];
const CHANGES: [usize; 4] = [0, 30, 300, 1000];

/// A file to be read.
#[derive(Clone, Copy)]
struct Asked {
    seed: u64,
    tokens: usize,
    changes: Option<usize>,
}

impl Asked {
    fn case(self) -> Case {
        file(self.seed, self.tokens, self.changes)
    }
}

/// A call of the archive; gives the count of bytes of the nodes.
#[inline(never)]
fn once_ours(stack: &Stack, case: &Case, buffers: &mut Buffers) -> usize {
    let used = stack.read_into(&call(case), buffers.room());
    used.expect("a file that is read").nodes
}

/// The source, from records to bytes.
#[inline(never)]
fn once_whole(case: &Case) -> usize {
    whole(case).expect("a file that is read")
}

/// The source's `get`.
#[inline(never)]
fn once_get(ready: &Ready<'_>) -> usize {
    4 * ready.get()
}

/// The microseconds that some work takes.
fn timed(case: &Case, work: impl FnOnce() -> usize) -> f64 {
    let began = Instant::now();
    assert_eq!(black_box(work()), case.nodes);
    began.elapsed().as_secs_f64() * 1e6
}

/// The least times of some rounds. The three take turns, so that all have the
/// same machine.
fn times(stack: &Stack, case: &Case, rounds: u64) -> [f64; 3] {
    let mut buffers = Buffers::new(case);
    let ready = Ready::new(case).expect("a case for the source");
    let mut least = [f64::MAX; 3];
    for _ in 0..rounds {
        least = [
            least[0].min(timed(case, || once_ours(stack, case, &mut buffers))),
            least[1].min(timed(case, || once_whole(case))),
            least[2].min(timed(case, || once_get(&ready))),
        ];
    }
    least
}

/// One call, for valgrind.
fn once(stack: &Stack, what: &str, case: &Case) -> Result<(), String> {
    let mut buffers = Buffers::new(case);
    let ready = Ready::new(case).ok_or("no case for the source")?;
    let count = match what {
        "ours" => once_ours(stack, case, &mut buffers),
        "whole" => once_whole(case),
        "get" => once_get(&ready),
        _ => return Err(format!("--once is ours, whole or get, not {what:?}")),
    };
    assert_eq!(count, case.nodes);
    Ok(())
}

/// The instructions of one call.
fn instructions(what: &str, asked: Asked) -> Result<f64, String> {
    let program = std::env::current_exe().map_err(|it| it.to_string())?;
    let mut command = Command::new("valgrind");
    command.args(["--tool=callgrind", "--callgrind-out-file=/dev/null"]);
    command.arg(format!("--toggle-collect=bench::once_{what}*"));
    command.arg(program).args(["--once", what]);
    command.args(["--tokens", &asked.tokens.to_string()]);
    command.args(["--seed", &asked.seed.to_string()]);
    if let Some(changes) = asked.changes {
        command.args(["--changes", &changes.to_string()]);
    }
    let done = command.output().map_err(|it| format!("valgrind: {it}"))?;
    let text = String::from_utf8_lossy(&done.stderr);
    let line = text.lines().find_map(|it| it.split_once("Collected : "));
    let count = line.and_then(|it| it.1.trim().parse().ok());
    count
        .filter(|&it: &f64| it > 0.0)
        .ok_or_else(|| format!("valgrind counted nothing:\n{text}"))
}

/// The instructions of one call of each.
fn counts(asked: Asked) -> Result<[f64; 3], String> {
    Ok([
        instructions("ours", asked)?,
        instructions("whole", asked)?,
        instructions("get", asked)?,
    ])
}

fn table(stack: &Stack, all: &[Asked], rounds: u64, counted: bool) -> Result<(), String> {
    let unit = if counted { "instructions" } else { "µs" };
    println!("{unit}; whole: the source from records to bytes; get: its `get` alone");
    println!("tokens changes         ours        whole   ours/whole          get   ours/get");
    for asked in all {
        let case = asked.case();
        let [ours, whole, get] = if counted {
            counts(*asked)?
        } else {
            times(stack, &case, rounds)
        };
        let tokens = case.records.len() / 5;
        let changes = asked.changes.map_or("-".to_owned(), |it| it.to_string());
        let (to_whole, to_get) = (ours / whole, ours / get);
        println!(
            "{tokens:>6} {changes:>7} {ours:>12.0} {whole:>12.0} {to_whole:>12.2} {get:>12.0} {to_get:>10.2}"
        );
    }
    Ok(())
}

/// The files of a table.
fn asked(seed: u64, fixities: bool) -> Vec<Asked> {
    let one = |tokens, changes| Asked {
        seed,
        tokens,
        changes,
    };
    if !fixities {
        return SIZES.map(|tokens| one(tokens, None)).to_vec();
    }
    let sizes = CHANGED_SIZES.into_iter();
    let each = sizes.flat_map(|tokens| CHANGES.map(|changes| one(tokens, Some(changes))));
    each.collect()
}

fn run() -> Result<(), String> {
    let names = [
        "--seed",
        "--rounds",
        "--instructions",
        "--fixities",
        "--once",
        "--tokens",
        "--changes",
    ];
    let pairs = pairs(std::env::args().skip(1), &names)?;
    let seed = number(&pairs, "--seed", Some(1))?;
    let rounds = number(&pairs, "--rounds", Some(200))?.max(1);
    let counted = number(&pairs, "--instructions", Some(0))? != 0;
    let fixities = number(&pairs, "--fixities", Some(0))? != 0;
    with_stack(|stack| match pairs.get("--once") {
        None => table(stack, &asked(seed, fixities), rounds, counted),
        Some(what) => {
            let tokens = number(&pairs, "--tokens", None)?.min(13_107) as usize;
            let changes = match pairs.get("--changes") {
                None => None,
                Some(_) => Some(number(&pairs, "--changes", None)?.min(1024) as usize),
            };
            let asked = Asked {
                seed,
                tokens,
                changes,
            };
            once(stack, what, &asked.case())
        }
    })
}

fn main() -> ExitCode {
    match run() {
        Ok(()) => ExitCode::SUCCESS,
        Err(message) => {
            eprintln!("bench: {message}\n{USAGE}");
            ExitCode::from(2)
        }
    }
}
