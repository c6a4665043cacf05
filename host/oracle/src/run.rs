//! Runs the given source on a case that passed the checks.

use crate::check::Checked;
use crate::{Trouble, env, finding};
use event_parse::rowan_sink::{Element, Node, Peak};
use limits::{Limits, Refusal};
use sml_fixity::Env;
use sml_parse::parser::Error;
use sml_syntax::ast::AstNode as _;
use sml_syntax::kind::SyntaxKind;
use std::any::Any;
use std::panic::{AssertUnwindSafe, catch_unwind};
use token::Token;

/// What a reading leaves behind.
pub struct Done {
    pub nodes: Vec<u8>,
    pub finds: Vec<u8>,
    pub env: Vec<u8>,
    pub peak: Peak,
}

/// The error is the answer of a refusal.
pub type Run = Result<Done, u8>;

/// The messages of the impossible cases in `should_break_exp`.
const IMPOSSIBLE: [&str; 2] = [
    "Handle and Ascription are never a min_prec",
    "Min is always a min_prec",
];

pub fn run(checked: &Checked<'_>, limits: Limits) -> Result<Run, Trouble> {
    let tokens = tokens(checked).ok_or(Trouble::NotUtf8)?;
    let mut fe = start(checked).ok_or(Trouble::NotUtf8)?;
    let parse = || {
        // Only now: the inserts of the starting environment are no changes.
        limits::begin(limits);
        let parse = sml_parse::get(&tokens, &mut fe);
        let node = parse.root.syntax();
        Done {
            nodes: nodes(node),
            finds: finds(node, &parse.errors, checked),
            env: env::bytes(&fe),
            peak: node.peak,
        }
    };
    match catch_unwind(AssertUnwindSafe(parse)) {
        Ok(done) => Ok(Ok(done)),
        Err(payload) => answer(&*payload).map(Err),
    }
}

pub fn tokens<'a>(checked: &Checked<'a>) -> Option<Vec<Token<'a, SyntaxKind>>> {
    let records = checked.records.iter();
    let token = records.map(|record| {
        Some(Token {
            kind: SyntaxKind::tokens()[usize::from(record.kind)],
            text: str::from_utf8(&checked.text[record.start..record.end]).ok()?,
        })
    });
    token.collect()
}

/// Makes the source's environment.
pub fn start(checked: &Checked<'_>) -> Option<Env> {
    limits::forget_changes();
    let mut ret = fast_hash::map_with_capacity(checked.env.len());
    for entry in &checked.env {
        let name = str::from_utf8(entry.name).ok()?;
        ret.insert(str_util::Name::new(name), entry.infix);
    }
    Some(ret)
}

/// The answer that an unwinding stands for.
fn answer(payload: &(dyn Any + Send)) -> Result<u8, Trouble> {
    if let Some(Refusal(answer)) = payload.downcast_ref() {
        return Ok(*answer);
    }
    let text = payload.downcast_ref::<&str>().copied();
    let text = text.or_else(|| payload.downcast_ref::<String>().map(String::as_str));
    let text = text.unwrap_or("a panic without a text");
    if IMPOSSIBLE.iter().any(|it| text.ends_with(it)) {
        return Ok(10);
    }
    Err(Trouble::Panic(text.to_owned()))
}

fn nodes(node: &Node<SyntaxKind>) -> Vec<u8> {
    let record = |element: &Element<SyntaxKind>| match *element {
        Element::Open(kind) => [1, kind.number(), 0, 0],
        Element::Token(kind, index) => {
            let [low, high] = (index as u16).to_le_bytes();
            [2, kind.number(), low, high]
        }
        Element::Close(kind) => [3, kind.number(), 0, 0],
    };
    node.elements.iter().flat_map(record).collect()
}

/// The findings in their order, those of strict mode in their ranks.
fn finds(node: &Node<SyntaxKind>, errors: &[Error], checked: &Checked<'_>) -> Vec<u8> {
    let mut ret = Vec::new();
    let mut strict = node.strict.iter().peekable();
    let mut errors = errors.iter();
    loop {
        let rank = ret.len() / 8;
        if let Some(at) = strict.next_if(|it| it.rank == rank) {
            ret.extend(finding::of_strict(at.place));
        } else if let Some(error) = errors.next() {
            ret.extend(finding::of_source(error, checked));
        } else {
            return ret;
        }
    }
}

#[cfg(test)]
mod tests {
    use super::{IMPOSSIBLE, answer};
    use crate::Trouble;
    use std::panic::catch_unwind;

    const EXP: &str = include_str!("../../../docs/src/crates/sml-parse/src/exp.rs");

    #[test]
    fn impossible_cases_are_the_sources() {
        let (_, body) = EXP.split_once("fn should_break_exp").expect("the function");
        assert_eq!(body.matches("unreachable!").count(), IMPOSSIBLE.len());
        for message in IMPOSSIBLE {
            assert!(body.contains(&format!("unreachable!(\"{message}\")")));
            let payload = catch_unwind(|| unreachable!("{message}")).expect_err("a panic");
            assert_eq!(answer(&*payload), Ok(10));
        }
    }

    #[test]
    fn other_panics_are_no_answers() {
        let payload = catch_unwind(|| panic!("another")).expect_err("a panic");
        assert_eq!(answer(&*payload), Err(Trouble::Panic("another".to_owned())));
    }
}
