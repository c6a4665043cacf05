//! The list of answers that is stored for the program `replay` is the one that
//! the Rust gives today.

use cases::answers::{HEAD, cases, line_of, list};
use std::collections::BTreeSet;
use std::path::Path;

fn stored(name: &str) -> Vec<u8> {
    let crates = Path::new(env!("CARGO_MANIFEST_DIR")).join("../../crates");
    std::fs::read(crates.join("replay").join(name)).expect("a stored file")
}

/// The command `answers` writes these files.
#[test]
fn stored_list() {
    let cases = cases();
    assert!(stored("stdin") == list(&cases), "stdin is another list");
    assert_eq!(stored("stdout"), line_of(&cases).into_bytes());
}

/// Every answer is there but 10, which no case is known to give.
#[test]
fn every_answer() {
    let answers: BTreeSet<u8> = cases().iter().map(|it| it[HEAD - 1]).collect();
    assert_eq!(answers, (0..=9).collect());
}
