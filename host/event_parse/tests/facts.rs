//! The parser's assertions are no idle ones: each fails where it should.

use event_parse::{Expected, Parser};
use limits::Limits;
use token::{Kind, Token};

#[derive(Clone, Copy, PartialEq, Eq)]
struct Plain;

impl Kind for Plain {
    fn is_trivia(self) -> bool {
        false
    }

    fn is_before_fixity(self) -> bool {
        false
    }

    fn is_int(self) -> bool {
        false
    }
}

struct Missing;

impl Expected<Plain> for Missing {
    fn expected(Plain: Plain) -> Self {
        Self
    }
}

const TOKENS: [Token<'_, Plain>; 1] = [Token {
    kind: Plain,
    text: "x",
}];

fn parser(tokens: &'static [Token<'static, Plain>]) -> Parser<'static, Plain, Missing> {
    limits::begin(Limits {
        depth: 9,
        records: 9,
        findings: 9,
        strict: false,
    });
    Parser::new(tokens)
}

#[test]
#[should_panic(expected = "last in first out")]
fn marks_cross() {
    let mut p = parser(&TOKENS);
    let outer = p.enter();
    let _inner = p.enter();
    p.exit(outer, Plain);
}

#[test]
#[should_panic(expected = "right after the exit")]
fn precede_late() {
    let mut p = parser(&TOKENS);
    let en = p.enter();
    let ex = p.exit(en, Plain);
    p.bump();
    let _ = p.precede(ex);
}

#[test]
#[should_panic(expected = "right after the exit")]
fn precede_after_abandon() {
    let mut p = parser(&TOKENS);
    let outer = p.enter();
    let inner = p.enter();
    let ex = p.exit(inner, Plain);
    p.abandon(outer);
    let _ = p.precede(ex);
}

#[test]
#[should_panic(expected = "same marks")]
fn take_back_inside_a_mark() {
    let mut p = parser(&TOKENS);
    let save = p.save();
    let _mark = p.enter();
    let _ = p.ok_since(save);
}

#[test]
#[should_panic(expected = "no fixity may change")]
fn take_back_over_a_change() {
    let mut p = parser(&TOKENS);
    let save = p.save();
    limits::count_change();
    let _ = p.ok_since(save);
}

#[test]
#[should_panic(expected = "must have a token")]
fn bump_at_the_end() {
    parser(&[]).bump();
}

#[test]
#[should_panic(expected = "no mark may be open")]
fn mark_left_open() {
    let mut p = parser(&[]);
    let _mark = p.enter();
    p.finish(&mut Default::default());
}

#[test]
#[should_panic(expected = "read once and in order")]
fn token_left_over() {
    parser(&TOKENS).finish(&mut Default::default());
}

/// A take-back gives the tokens, the records and the findings back.
#[test]
fn take_back() {
    let mut p = parser(&TOKENS);
    let save = p.save();
    p.bump();
    assert!(p.eat(Plain).is_none());
    assert!(!p.ok_since(save));
    let save = p.save();
    assert!(p.eat(Plain).is_some());
    assert!(p.ok_since(save));
    let mut sink = Default::default();
    p.finish(&mut sink);
    let (node, errors) = sink.finish();
    assert_eq!((node.elements.len(), errors.len()), (1, 0));
    assert_eq!((node.peak.records, node.peak.findings), (1, 1));
}
