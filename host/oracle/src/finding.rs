//! The records of findings.
//!
//! The source keeps its kinds of errors to itself but for their `Debug` text,
//! such as `Error(Expected(Kind(RRound)))`, from which the detail and the name
//! are taken here. The number comes from the public code.

use crate::check::Checked;
use sml_parse::parser::Error;
use sml_syntax::kind::SyntaxKind;

/// `Expected` in its order, as far as document 01 counts it.
const EXPECTED: [&str; 12] = [
    "Exp",
    "Lab",
    "Pat",
    "Path",
    "SigExp",
    "StrExp",
    "Ty",
    "LRoundExpTail",
    "Item",
    "NameOrInt",
    "From",
    "NameOrString",
];

/// `ParensExpFlavor` in its order.
const FLAVORS: [&str; 5] = ["Raise", "If", "While", "Case", "Fn"];

/// In the place of a name.
const NO_NAME: u16 = 65_535;

/// The number of strict mode's finding.
const LARGE_FIXITY: u8 = 10;

/// The record of a finding of the source.
pub fn of_source(error: &Error, checked: &Checked<'_>) -> [u8; 8] {
    let number = (error.code().0 - 3000) as u8;
    let text = format!("{error:?}");
    let (detail, name) = match number {
        1 | 2 => (0, name_index(&text, checked)),
        6 => (expected(&text), NO_NAME),
        9 => (place(&FLAVORS, argument(&text)), NO_NAME),
        _ => (0, NO_NAME),
    };
    record(number, detail, error.range().place, name)
}

/// The record of strict mode's finding.
pub fn of_strict(at: usize) -> [u8; 8] {
    record(LARGE_FIXITY, 0, at, NO_NAME)
}

fn record(number: u8, detail: u8, at: usize, name: u16) -> [u8; 8] {
    let [at_low, at_high] = (at as u16).to_le_bytes();
    let [name_low, name_high] = name.to_le_bytes();
    [number, detail, at_low, at_high, name_low, name_high, 0, 0]
}

/// The innermost word: `RRound` of the example above.
fn argument(text: &str) -> &str {
    let text = text.trim_end_matches(')');
    text.rsplit('(').next().unwrap_or(text)
}

/// The place in a list, counted from 1.
fn place(list: &[&str], word: &str) -> u8 {
    let found = list.iter().position(|&it| it == word);
    found.expect("a word of the source that the list lacks") as u8 + 1
}

fn expected(text: &str) -> u8 {
    let word = argument(text);
    if !text.contains("Kind(") {
        return place(&EXPECTED, word);
    }
    let mut tokens = SyntaxKind::tokens().iter();
    let kind = tokens.find(|kind| kind.to_string() == word);
    128 + kind.expect("a token kind").number()
}

/// The index of the token whose text the name was made from.
fn name_index(text: &str, checked: &Checked<'_>) -> u16 {
    let address: usize = argument(text).parse().expect("the address of a name");
    let start = address - checked.text.as_ptr().addr();
    let found = checked.records.binary_search_by_key(&start, |it| it.start);
    found.expect("a name must be the text of a token") as u16
}
