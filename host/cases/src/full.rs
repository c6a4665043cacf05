//! Cases that fill something up: environments, fixity changes, texts.

use crate::readable::{self, roomy};
use crate::rng::Rng;
use crate::tok::{self, Laid, NAME, Tok};
use oracle::Case;

/// The most fixity changes of a reading.
const MOST_CHANGES: usize = 1024;

/// So many names of one or two bytes, sorted.
pub fn names(count: usize) -> Vec<String> {
    let letters = "abcdefghijklmnopqrstuvwxyz".chars();
    let firsts = letters.clone().map(String::from);
    let seconds = letters.clone().flat_map(|first| {
        letters
            .clone()
            .map(move |second| format!("{first}{second}"))
    });
    let mut ret: Vec<String> = firsts.chain(seconds).take(count).collect();
    ret.sort();
    ret
}

fn full_env(count: usize, rng: &mut Rng) -> Vec<u8> {
    let mut ret = Vec::new();
    for name in names(count) {
        oracle::env::write(&mut ret, name.as_bytes(), 5, rng.one_in(2));
    }
    ret
}

/// A declaration that meets the end of an environment: entries added, written
/// over or taken away, in a scope or not, and names of about 255 bytes.
pub fn entries(rng: &mut Rng) -> Case {
    let lines = [
        "infix new",
        "infixr 5 a",
        "nonfix a infix new",
        "nonfix new infix 3 new newer",
        "infix a b new a newer",
        "let infix new in 1 a 2 end ; infix newer",
        "structure S = struct nonfix a infix new end infix newer",
        "local nonfix a b in infix new newer end infix a",
        "val x = let nonfix a infix new in x new y end new y",
        "functor F ( infix new ) = S infix newer",
        "structure S = F ( nonfix a infix new ) infix newer",
    ];
    let mut toks = tok::line(rng.pick(&lines));
    if rng.one_in(3) {
        let long = Tok::new(NAME, &"n".repeat(rng.pick(&[254, 255, 256, 257, 300])));
        toks.push(long.clone());
        toks.extend(tok::line(rng.pick(&["", "nonfix x", "; 1 +", "infix 3"])));
        toks.push(long);
    }
    let count = rng.pick(&[0, 254, 255, 256, 256]);
    let mut ret = roomy(tok::plain(&toks), full_env(count, rng));
    // Which of 5 and 8 comes first is then a matter of the source's order.
    if rng.one_in(4) {
        ret.scratch = rng.below(400);
    }
    ret
}

/// About as many changes as are allowed. The scratch is larger than elsewhere,
/// for each change takes a token.
pub fn changes(rng: &mut Rng) -> Case {
    let count = rng.pick(&[MOST_CHANGES - 1, MOST_CHANGES, MOST_CHANGES + 1, 1100]);
    let scoped = rng.one_in(2);
    let mut toks = tok::line(if scoped { "let infix a" } else { "infix a" });
    for place in 1..count {
        if rng.one_in(100) && place > 1 {
            toks.extend(tok::line(
                rng.pick(&["infix", "infixr 5", "nonfix", "; nonfix"]),
            ));
        }
        toks.push(Tok::word(rng.pick(&["a", "b", "*", "=", "a"])));
    }
    if scoped {
        toks.extend(tok::line("in 1 end"));
    }
    if rng.one_in(4) {
        toks.extend(tok::line("nonfix b"));
    }
    let mut ret = roomy(tok::plain(&toks), oracle::std_env());
    ret.scratch = 4 * crate::ROOM;
    ret.nodes = 4 * crate::ROOM;
    ret
}

/// Marks that nest, with just depth enough or one level short of it; the depth
/// is the largest when that doesn't suffice.
pub fn deep(rng: &mut Rng) -> Case {
    let words = [
        "(",
        "[",
        "if",
        "1 ::",
        "fn _ =>",
        "let val x =",
        "val (",
        "local",
        "x : (",
        "structure S = struct",
        "signature S = sig",
        "functor F (",
        "datatype t = T of { a :",
    ];
    let count = 1 + rng.below(400);
    let toks = tok::line(&[rng.pick(&words)].repeat(count).join(" "));
    let mut ret = roomy(tok::plain(&toks), oracle::std_env());
    ret.scratch = 16 * crate::ROOM;
    ret.nodes = 16 * crate::ROOM;
    ret.finds = 16 * crate::ROOM;
    if let Ok(Ok(needs)) = oracle::needs(&ret) {
        ret.depth = needs.depth - rng.below(2) as u64;
    }
    ret
}

/// A text or a list of records at its longest, or longer.
pub fn long(rng: &mut Rng) -> Case {
    let mut laid = Laid::default();
    if rng.one_in(2) {
        let count = oracle::MOST_RECORDS + rng.below(3) - 1;
        let kind = rng.pick(&[tok::TRIVIA, tok::OTHER, NAME]);
        for _ in 0..count {
            laid.push(&Tok::new(kind, "x"));
        }
    } else {
        laid = tok::plain(&tok::line("val x = 1"));
        let length = oracle::MOST_TEXT + rng.below(3) - 1;
        laid.text.resize(length, b' ');
        // A token at the very end of the text.
        if rng.one_in(2) && length <= oracle::MOST_TEXT {
            laid.text.truncate(length - 1);
            laid.push(&Tok::word("y"));
        }
    }
    roomy(laid, readable::odd_env(rng))
}
