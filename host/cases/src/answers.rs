//! The list of answers that the program `replay` is run on, so that the parser
//! can be held to the Rust where there is no Rust.
//!
//! Numbers are little-endian. The list is the number of cases in two bytes, and
//! the cases. A case is a head of [`HEAD`] bytes and the bytes that it counts.
//! The head: ten numbers of two bytes, the lengths of text, records and starting
//! environment, those of the nodes, the findings and the final environment that
//! must be handed out, and the rooms for scratch, nodes, findings and final
//! environment; then depth and mode in eight bytes each, and the answer in one.

use crate::readable::roomy;
use crate::{FAMILIES, Family, make, tok};
use oracle::{Case, Outcome};
use std::collections::BTreeMap;

/// The bytes of a case's head.
pub const HEAD: usize = 37;

/// The most bytes of a list.
pub const MOST: usize = 131_072;

const SEED: u64 = 20_261_115;

/// The cases of each family from which the list's are drawn, and their tokens.
const DRAWN: u64 = 1500;
const TOKENS: usize = 12;

/// A longer case is taken only where its family has no other of its answer in
/// such an environment.
const LONG: usize = 600;

/// An environment of so many bytes is a full one, or nearly.
const FULL: usize = 1000;

/// Document 01's lines to try.
const LINES: [&str; 15] = [
    "",
    ";",
    "val x = 1 ; ;",
    "val x = 1 ; ; ;",
    "1 + 2 * 3",
    "1 :: 2 @ 3",
    "infix 5 %% ; 1 :: 2 %% 3",
    "infix ~1 f",
    "infix 65536 f",
    "infix 65535 f",
    "infix 10 f",
    "infix",
    "fun f x = x",
    "local infix 3 f in end ; 1 f 2",
    "val x = ( y : ( int ) = 3 )",
];

/// The case of a line in the standard environment, plain, with much room.
fn line(words: &str) -> Case {
    roomy(tok::plain(&tok::line(words)), oracle::std_env())
}

/// Document 01's lines, and the limits that it names for some of them.
fn lines() -> Vec<Case> {
    let mut ret: Vec<Case> = LINES.map(line).into();
    for scratch in [16, 15] {
        let (depth, empty) = (1, line(""));
        ret.push(Case {
            depth,
            scratch,
            ..empty
        });
    }
    for (depth, scratch, nodes) in [(6, 80, 20), (5, 80, 20), (6, 79, 20), (6, 80, 19)] {
        let semicolon = line(";");
        ret.push(Case {
            depth,
            scratch,
            nodes,
            ..semicolon
        });
    }
    for finds in [16, 15] {
        let fun = line("fun f x = x");
        ret.push(Case { finds, ..fun });
    }
    ret
}

/// The bytes of a case, or none where a length does not fit two bytes.
fn bytes(case: &Case, outcome: &Outcome) -> Option<Vec<u8>> {
    let lent = [&case.text, &case.records, &case.env];
    let handed = [&outcome.nodes, &outcome.finds, &outcome.env];
    let parts = || lent.into_iter().chain(handed);
    let rooms = [case.scratch, case.nodes, case.finds, case.fin];
    let mut ret = Vec::new();
    for length in parts().map(Vec::len).chain(rooms) {
        ret.extend(u16::try_from(length).ok()?.to_le_bytes());
    }
    ret.extend(case.depth.to_le_bytes());
    ret.extend(case.mode.to_le_bytes());
    ret.push(outcome.answer);
    ret.extend(parts().flatten());
    Some(ret)
}

/// A case with the Rust's answer.
fn answered(case: &Case) -> Option<(u8, Vec<u8>)> {
    let outcome = oracle::read(case).expect("an outcome");
    Some((outcome.answer, bytes(case, &outcome)?))
}

/// Of each answer, with a full environment or another, and of each number of
/// tokens the shortest case of a family, the first of those that are as short.
fn drawn(family: Family) -> Vec<Vec<u8>> {
    let mut shortest: BTreeMap<((u8, bool), usize), Vec<u8>> = BTreeMap::new();
    for index in 0..DRAWN {
        let (_, case) = make(SEED, index, TOKENS, Some(family));
        let Some((answer, bytes)) = answered(&case) else {
            continue;
        };
        let sort = (answer, case.env.len() > FULL);
        let key = (sort, case.records.len() / 5);
        match shortest.get(&key) {
            Some(other) if other.len() <= bytes.len() => {}
            _ => _ = shortest.insert(key, bytes),
        }
    }
    let mut least: BTreeMap<(u8, bool), usize> = BTreeMap::new();
    for ((sort, _), bytes) in &shortest {
        let length = least.entry(*sort).or_insert(bytes.len());
        *length = bytes.len().min(*length);
    }
    let kept = shortest.into_iter();
    let kept = kept.filter(|((sort, _), it)| it.len() <= LONG || it.len() == least[sort]);
    kept.map(|(_, bytes)| bytes).collect()
}

/// The cases of the list: document 01's lines, then those of each family that
/// needs no great number of tokens.
#[must_use]
pub fn cases() -> Vec<Vec<u8>> {
    let lines = lines();
    let lines = lines.iter().filter_map(answered).map(|it| it.1);
    let mixed = FAMILIES.iter().filter(|it| it.2 > 0);
    lines.chain(mixed.flat_map(|it| drawn(it.0))).collect()
}

/// The list of these cases.
///
/// # Panics
///
/// If there are more than a list may have.
#[must_use]
pub fn list(cases: &[Vec<u8>]) -> Vec<u8> {
    let count = u16::try_from(cases.len()).expect("a number of two bytes");
    let mut ret = count.to_le_bytes().to_vec();
    ret.extend(cases.iter().flatten());
    assert!(ret.len() <= MOST, "{} bytes are too many", ret.len());
    ret
}

/// What the program writes where no answer differs.
#[must_use]
pub fn line_of(cases: &[Vec<u8>]) -> String {
    format!("{} answers, 0 differ\n", cases.len())
}
