//! Tokens by their spelling, and how they are laid out in a text.

use crate::rng::Rng;

/// A token before it has a place in a text.
#[derive(Debug, Clone, PartialEq, Eq)]
pub struct Tok {
    pub kind: u8,
    pub text: String,
}

pub const NAME: u8 = 61;
pub const INT: u8 = 63;
pub const TRIVIA: u8 = 68;
pub const OTHER: u8 = 69;

const TY_VAR: u8 = 62;
const REAL: u8 = 64;
const WORD: u8 = 65;
const CHAR: u8 = 66;
const STRING: u8 = 67;

/// The spellings of the kinds 0 to 60, which have one each.
const SPELLINGS: &str = "... . | ( ) { } [ ] = * , ; : :> => -> _ # \
    val rec and fun op type eqtype datatype abstype with end exception open \
    infix infixr nonfix do local in structure signature functor include struct \
    let sig where sharing withtype _esimport raise if then else while case of fn \
    andalso orelse handle as";

/// Prefixes that give a kind to a spelling which would be of another.
const PREFIXES: [(&str, u8); 2] = [("int`", INT), ("name`", NAME)];

impl Tok {
    #[must_use]
    pub fn new(kind: u8, text: &str) -> Self {
        let text = text.to_owned();
        Self { kind, text }
    }

    /// The token that a word without blanks spells. A kind before a backquote,
    /// as in "int`+5", goes before the spelling's own.
    #[must_use]
    pub fn word(word: &str) -> Self {
        for (prefix, kind) in PREFIXES {
            if let Some(text) = word.strip_prefix(prefix) {
                return Self::new(kind, text);
            }
        }
        let place = SPELLINGS.split(' ').position(|it| it == word);
        Self::new(
            place.map_or_else(|| literal_or_name(word), |it| it as u8),
            word,
        )
    }

    /// The usual token of a kind.
    #[must_use]
    pub fn usual(kind: u8, rng: &mut Rng) -> Self {
        let pool = match kind {
            NAME => "x y f g + :: from S int o",
            TY_VAR => "'a ''b",
            INT => "0 1 7 10 ~1 65536",
            REAL => "1.5",
            WORD => "0w7",
            CHAR => "#\"c\"",
            STRING => "\"s\"",
            TRIVIA => "(**)",
            OTHER => "$ ?",
            _ => SPELLINGS.split(' ').nth(usize::from(kind)).unwrap_or("?"),
        };
        let pool: Vec<&str> = pool.split(' ').collect();
        Self::new(kind, rng.pick(&pool))
    }
}

fn literal_or_name(word: &str) -> u8 {
    let digits = word.trim_start_matches('~');
    if word.starts_with('\'') {
        TY_VAR
    } else if word.starts_with('"') {
        STRING
    } else if word.starts_with("#\"") {
        CHAR
    } else if word.starts_with("0w") {
        WORD
    } else if !digits.starts_with(|it: char| it.is_ascii_digit()) {
        NAME
    } else if word.contains('.') {
        REAL
    } else {
        INT
    }
}

/// The tokens of a line whose words are parted by blanks.
#[must_use]
pub fn line(words: &str) -> Vec<Tok> {
    words.split_whitespace().map(Tok::word).collect()
}

/// A text and the token records of it.
#[derive(Debug, Clone, Default)]
pub struct Laid {
    pub text: Vec<u8>,
    pub records: Vec<u8>,
}

impl Laid {
    /// Adds a token at the end of the text.
    pub fn push(&mut self, tok: &Tok) {
        let start = self.text.len() as u16;
        self.records.push(tok.kind);
        self.records.extend(start.to_le_bytes());
        self.records.extend((tok.text.len() as u16).to_le_bytes());
        self.text.extend(tok.text.as_bytes());
    }
}

/// Lays tokens out side by side, with one blank between neighbours.
#[must_use]
pub fn plain(toks: &[Tok]) -> Laid {
    let mut ret = Laid::default();
    for (place, tok) in toks.iter().enumerate() {
        if place > 0 {
            ret.text.push(b' ');
        }
        ret.push(tok);
    }
    ret
}

/// Lays tokens out with gaps that no record covers, and with up to `trivia`
/// trivia records among them.
pub fn sprinkled(toks: &[Tok], mut trivia: usize, rng: &mut Rng) -> Laid {
    let mut ret = Laid::default();
    let often = rng.pick(&[2, 4, 12]);
    for place in 0..=toks.len() {
        while trivia > 0 && rng.one_in(often) {
            trivia -= 1;
            ret.push(&Tok::new(TRIVIA, rng.pick(&[" ", "\n\t", "(*é*)", "x"])));
        }
        let gap = rng.pick(&["", "", " ", "  ", "\n", "é", "val"]);
        ret.text.extend(gap.as_bytes());
        if let Some(tok) = toks.get(place) {
            ret.push(tok);
        }
    }
    ret
}
