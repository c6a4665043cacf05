//! Answers like document 01's reader, by running the given source.

mod check;
pub mod env;
mod finding;
pub mod here;
mod run;

use check::Checked;
use std::thread;

pub use check::{MOST_DEPTH, MOST_MODE, MOST_RECORDS, MOST_TEXT};

/// One call of the reader. The rooms are in bytes.
#[derive(Debug, Clone)]
pub struct Case {
    pub text: Vec<u8>,
    pub records: Vec<u8>,
    pub env: Vec<u8>,
    pub depth: u64,
    pub mode: u64,
    pub scratch: usize,
    pub nodes: usize,
    pub finds: usize,
    pub fin: usize,
}

/// The answer and the used bytes, which are none unless the answer is 0.
#[derive(Debug, Clone, PartialEq, Eq)]
pub struct Outcome {
    pub answer: u8,
    pub nodes: Vec<u8>,
    pub finds: Vec<u8>,
    pub env: Vec<u8>,
}

impl Outcome {
    fn refused(answer: u8) -> Self {
        Self {
            answer,
            nodes: Vec::new(),
            finds: Vec::new(),
            env: Vec::new(),
        }
    }
}

/// The least settings with which a case is read: the marks, and the bytes of
/// each room.
#[derive(Debug, Clone, Copy, PartialEq, Eq)]
pub struct Needs {
    pub depth: u64,
    pub scratch: usize,
    pub nodes: usize,
    pub finds: usize,
    pub fin: usize,
}

/// Why there is no outcome.
#[derive(Debug, Clone, PartialEq, Eq)]
pub enum Trouble {
    /// A token or a name of the environment is no UTF-8: the source cannot be
    /// run on it.
    NotUtf8,
    /// A panic that stands for no answer.
    Panic(String),
}

/// With at most this many tokens, no nesting is too deep for a common stack.
const FEW_TOKENS: usize = 100;

/// Room for a thousand marks, each with several frames.
const LARGE_STACK: usize = 64 << 20;

/// Reads a case.
///
/// # Errors
///
/// If the source cannot be run on it, or if an assertion about the source fails.
pub fn read(case: &Case) -> Result<Outcome, Trouble> {
    let checked = match check::check(case) {
        Ok(checked) => checked,
        Err(answer) => return Ok(Outcome::refused(answer)),
    };
    let limits = limits::Limits {
        depth: case.depth as usize,
        records: case.scratch / 8,
        findings: case.finds / 8,
        strict: case.mode == 2,
    };
    Ok(match on_stack(&checked, limits)? {
        Err(answer) => Outcome::refused(answer),
        Ok(done) if done.nodes.len() > case.nodes => Outcome::refused(6),
        Ok(done) if done.env.len() > case.fin => Outcome::refused(9),
        Ok(done) => Outcome {
            answer: 0,
            nodes: done.nodes,
            finds: done.finds,
            env: done.env,
        },
    })
}

/// Measures what a case needs in order to be read, or gives the answer by which
/// it is refused whatever the rooms are.
///
/// # Errors
///
/// As [`read`].
pub fn needs(case: &Case) -> Result<Result<Needs, u8>, Trouble> {
    let ample = Case {
        depth: MOST_DEPTH,
        ..case.clone()
    };
    let checked = match check::check(&ample) {
        Ok(checked) => checked,
        Err(answer) => return Ok(Err(answer)),
    };
    let limits = limits::Limits {
        depth: MOST_DEPTH as usize,
        records: usize::MAX,
        findings: usize::MAX,
        strict: case.mode == 2,
    };
    Ok(on_stack(&checked, limits)?.map(|done| Needs {
        depth: done.peak.depth as u64,
        scratch: done.peak.records * 8,
        nodes: done.nodes.len(),
        finds: done.peak.findings * 8,
        fin: done.env.len(),
    }))
}

/// Runs the source, on a thread with a large stack if there are many tokens.
fn on_stack(checked: &Checked<'_>, limits: limits::Limits) -> Result<run::Run, Trouble> {
    if checked.records.len() <= FEW_TOKENS {
        return run::run(checked, limits);
    }
    thread::scope(|scope| {
        let builder = thread::Builder::new().stack_size(LARGE_STACK);
        let worker = builder.spawn_scoped(scope, || run::run(checked, limits));
        let worker = worker.expect("no thread with a large stack");
        worker.join().expect("a run catches its panics")
    })
}

/// The bytes of the standard environment, from the source's table.
#[must_use]
pub fn std_env() -> Vec<u8> {
    limits::forget_changes();
    env::bytes(&sml_fixity::STD_BASIS)
}
