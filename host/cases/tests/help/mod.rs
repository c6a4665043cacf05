//! What the tests share.
#![allow(dead_code, reason = "each test file uses its own part of it")]

use cases::tok::{self, Tok};
use oracle::{Case, Outcome};
use sml_fixity::Assoc;
use sml_syntax::kind::SyntaxKind;

/// A roomy case of these tokens in the standard environment, plain.
pub fn case(toks: &[Tok]) -> Case {
    cases::standard(tok::plain(toks), 65_536)
}

/// The case of a line of words.
pub fn words(line: &str) -> Case {
    case(&tok::line(line))
}

/// Reads a case that the source can be run on.
pub fn read(case: &Case) -> Outcome {
    oracle::read(case).expect("an outcome")
}

/// The answer to a case.
pub fn answer(case: &Case) -> u8 {
    read(case).answer
}

/// The tree: `Root(DecWithTail() 0)` for a node with an empty one and token 0.
pub fn tree(outcome: &Outcome) -> String {
    let mut ret = String::new();
    for record in outcome.nodes.chunks_exact(4) {
        let node = || SyntaxKind::nodes()[usize::from(record[1])].to_string();
        let index = u16::from_le_bytes([record[2], record[3]]);
        if record[0] != 3 && !ret.is_empty() && !ret.ends_with('(') {
            ret.push(' ');
        }
        match record[0] {
            1 => ret += &(node() + "("),
            2 => ret += &index.to_string(),
            _ => ret.push(')'),
        }
    }
    ret
}

/// The findings: number, detail, place, and the name's index if there is one.
pub fn finds(outcome: &Outcome) -> Vec<(u8, u8, u16, Option<u16>)> {
    let records = outcome.finds.chunks_exact(8);
    let find = records.map(|it| {
        assert_eq!(it[6..], [0, 0], "a finding ends in two zeroes");
        let place = u16::from_le_bytes([it[2], it[3]]);
        let name = u16::from_le_bytes([it[4], it[5]]);
        (it[0], it[1], place, (name != 65_535).then_some(name))
    });
    find.collect()
}

/// The entry of a name in the final environment: precedence and right.
pub fn entry(outcome: &Outcome, name: &str) -> Option<(u16, bool)> {
    let entries = oracle::env::entries(&outcome.env).expect("an environment in the form");
    let found = entries.iter().find(|it| it.name == name.as_bytes())?;
    Some((found.infix.prec, found.infix.assoc == Assoc::Right))
}
