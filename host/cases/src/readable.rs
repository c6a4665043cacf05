//! Cases that pass the checks and that roomy buffers mostly read.

use crate::rng::Rng;
use crate::tok::{self, Laid, Tok};
use crate::{Family, ROOM, grammar};
use oracle::Case;

/// Names that odd environments hold: the grammar's operators and some of its
/// names and numbers.
const ENTRIES: &[&str] = &[
    "%%", "*", "+", "-", "1", "::", ":=", "=", "@", "before", "div", "f", "fo", "g", "o", "x", "y",
    "é",
];

/// The most tokens for which [`ROOM`] is made.
const USUAL_TOKENS: usize = 40;

const PRECEDENCES: &[u16] = &[0, 1, 3, 5, 6, 9, 10, 256, 65_535];

/// A case of one of the four families that this file makes.
pub fn case(family: Family, tokens: usize, rng: &mut Rng) -> Case {
    let toks = toks(family, tokens, rng);
    let laid = if rng.one_in(3) {
        tok::plain(&toks)
    } else {
        tok::sprinkled(&toks, tokens - toks.len(), rng)
    };
    let env = if family == Family::Infix || rng.one_in(5) {
        odd_env(rng)
    } else {
        oracle::std_env()
    };
    let mut ret = roomy(laid, env);
    ret.mode = rng.below(3) as u64;
    widen(&mut ret, tokens);
    ret
}

/// Widens the rooms where there may be more tokens than they are made for.
fn widen(case: &mut Case, tokens: usize) {
    let times = tokens.div_ceil(USUAL_TOKENS).max(1);
    for room in [&mut case.scratch, &mut case.nodes, &mut case.finds] {
        *room *= times;
    }
}

/// A case of any of the four.
pub fn any(tokens: usize, rng: &mut Rng) -> Case {
    let families = [
        Family::Soup,
        Family::Program,
        Family::Damaged,
        Family::Infix,
    ];
    case(rng.pick(&families), tokens, rng)
}

/// A plain case with the largest depth and rooms for most.
#[must_use]
pub fn roomy(laid: Laid, env: Vec<u8>) -> Case {
    Case {
        text: laid.text,
        records: laid.records,
        env,
        depth: oracle::MOST_DEPTH,
        mode: 1,
        scratch: ROOM,
        nodes: ROOM,
        finds: ROOM / 4,
        fin: ROOM / 2,
    }
}

fn toks(family: Family, tokens: usize, rng: &mut Rng) -> Vec<Tok> {
    let size = rng.below(tokens + 1);
    let mut ret = match family {
        Family::Soup => soup(size, rng),
        Family::Infix => grammar::phrase("line", size, rng),
        _ => grammar::phrase("file", size, rng),
    };
    if family == Family::Damaged {
        for _ in 0..=rng.below(4) {
            damage(&mut ret, rng);
        }
    }
    ret.truncate(tokens);
    ret
}

/// Tokens of most kinds, or of a few kinds only, which get further into a rule
/// than many do.
fn soup(size: usize, rng: &mut Rng) -> Vec<Tok> {
    let count = if rng.one_in(2) { 200 } else { 2 + rng.below(7) };
    let kinds: Vec<u8> = (0..count).map(|_| any_kind(rng)).collect();
    let mut ret = Vec::new();
    for _ in 0..size {
        ret.push(any_text(rng.pick(&kinds), rng));
    }
    ret
}

fn any_kind(rng: &mut Rng) -> u8 {
    rng.below(usize::from(tok::OTHER) + 1) as u8
}

/// A token of a kind. Now and then it has the text of another kind, since a
/// lookup is by the text and a rule goes by the kind.
fn any_text(kind: u8, rng: &mut Rng) -> Tok {
    if rng.one_in(6) {
        Tok::new(kind, rng.pick(ENTRIES))
    } else {
        Tok::usual(kind, rng)
    }
}

fn damage(toks: &mut Vec<Tok>, rng: &mut Rng) {
    if toks.is_empty() {
        return;
    }
    let place = rng.below(toks.len());
    let other = rng.below(toks.len());
    match rng.below(7) {
        0 | 1 => drop(toks.remove(place)),
        2 => toks.insert(other, toks[place].clone()),
        3 => toks.swap(place, other),
        4 => toks[place] = any_text(any_kind(rng), rng),
        5 => toks.insert(
            place,
            Tok::word(rng.pick(&["x", "*", "fun", "op", "end", "(", ")"])),
        ),
        _ => toks.truncate(place + 1),
    }
}

/// An environment of some names. It has few precedences, so that equal ones
/// are common.
pub fn odd_env(rng: &mut Rng) -> Vec<u8> {
    let mut ret = Vec::new();
    let seldom = rng.pick(&[1, 1, 2, 3]);
    let few: Vec<u16> = (0..rng.pick(&[1, 2, 2, 3]))
        .map(|_| rng.pick(PRECEDENCES))
        .collect();
    for name in ENTRIES {
        if rng.one_in(seldom) {
            let prec = rng.pick(&few);
            oracle::env::write(&mut ret, name.as_bytes(), prec, rng.one_in(2));
        }
    }
    ret
}
