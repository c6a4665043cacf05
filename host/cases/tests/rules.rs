//! Rules of document 01 beside its lines: kinds, checks, limits and orders.

mod help;

use cases::tok::{self, NAME, Tok};
use help::{answer, case, entry, finds, read, tree, words};
use oracle::Case;
use sml_syntax::kind::SyntaxKind;
use std::collections::BTreeSet;

const SOURCE: [&str; 8] = [
    include_str!("../../../docs/src/crates/sml-parse/src/dec.rs"),
    include_str!("../../../docs/src/crates/sml-parse/src/exp.rs"),
    include_str!("../../../docs/src/crates/sml-parse/src/lib.rs"),
    include_str!("../../../docs/src/crates/sml-parse/src/parser.rs"),
    include_str!("../../../docs/src/crates/sml-parse/src/pat.rs"),
    include_str!("../../../docs/src/crates/sml-parse/src/root.rs"),
    include_str!("../../../docs/src/crates/sml-parse/src/ty.rs"),
    include_str!("../../../docs/src/crates/sml-parse/src/util.rs"),
];

/// Document 01's names of the kinds 0 to 69, `Kw` left off.
const TOKENS: &str = "DotDotDot Dot Bar LRound RRound LCurly RCurly LSquare RSquare Eq Star Comma \
    Semicolon Colon ColonGt EqGt MinusGt Underscore Hash Val Rec And Fun Op Type Eqtype Datatype \
    Abstype With End Exception Open Infix Infixr Nonfix Do Local In Structure Signature Functor \
    Include Struct Let Sig Where Sharing Withtype Esimport Raise If Then Else While Case Of Fn \
    Andalso Orelse Handle As Name TyVar IntLit RealLit WordLit CharLit StringLit Trivia Other";

#[test]
fn token_kinds_are_those_of_the_document() {
    let kinds = SyntaxKind::tokens().iter().map(ToString::to_string);
    let names: Vec<String> = kinds.map(|it| it.trim_end_matches("Kw").into()).collect();
    assert_eq!(names.join(" "), TOKENS);
    for (place, kind) in SyntaxKind::tokens().iter().enumerate() {
        assert_eq!(usize::from(kind.number()), place);
        assert_eq!(kind.to_string().ends_with("Kw"), (19..=60).contains(&place));
    }
}

/// Every kind that the source names is a token's or a node's.
#[test]
fn node_kinds_are_those_of_the_source() {
    let tokens: BTreeSet<String> = SyntaxKind::tokens()
        .iter()
        .map(ToString::to_string)
        .collect();
    let mut named = BTreeSet::new();
    for text in SOURCE {
        for part in text.split("SK::").skip(1) {
            let end = part.find(|it: char| !it.is_alphanumeric());
            named.insert(part[..end.unwrap_or(part.len())].to_owned());
        }
    }
    let nodes: Vec<String> = named.difference(&tokens).cloned().collect();
    let kinds: Vec<String> = SyntaxKind::nodes()
        .iter()
        .map(ToString::to_string)
        .collect();
    assert_eq!(nodes, kinds);
    assert_eq!(nodes.len(), 129);
}

/// The generator spells each keyword as its own kind.
#[test]
fn spellings() {
    for (place, name) in TOKENS.split(' ').enumerate().take(61).skip(19) {
        let word = name.to_lowercase().replace("esimport", "_esimport");
        assert_eq!(usize::from(Tok::word(&word).kind), place, "{word}");
    }
}

#[test]
fn standard_environment() {
    let bytes = oracle::std_env();
    assert_eq!(bytes.len(), 104);
    let entries = oracle::env::entries(&bytes).expect("the form");
    assert_eq!(entries.len(), 18);
    let outcome = read(&words(""));
    assert_eq!(entry(&outcome, "::"), Some((5, true)));
    assert_eq!(entry(&outcome, "<="), Some((4, false)));
}

/// Changes a case that is read, and wants this answer.
fn changed(want: u8, change: impl FnOnce(&mut Case)) {
    let mut case = words("val x = 1");
    change(&mut case);
    assert_eq!(answer(&case), want, "{case:?}");
}

#[test]
fn answer_1() {
    for depth in [0, 1001, 1 << 32, u64::MAX] {
        changed(1, |it| it.depth = depth);
    }
    for mode in [3, 256, u64::MAX] {
        changed(1, |it| it.mode = mode);
    }
    for mode in 0..=2 {
        changed(0, |it| it.mode = mode);
    }
    for length in [65_535, 65_536] {
        let want = u8::from(length > 65_535);
        changed(want, |it| it.text.resize(length, b' '));
    }
    for length in 16..20 {
        changed(1, |it| it.records.truncate(length));
    }
    for count in [13_107, 13_108] {
        let laid = tok::plain(&vec![Tok::new(tok::TRIVIA, "x"); count]);
        let want = u8::from(count > 13_107);
        changed(want, |it| (it.text, it.records) = (laid.text, laid.records));
    }
}

#[test]
fn answer_2() {
    changed(2, |it| it.records[0] = 70);
    changed(0, |it| it.records[0] = 69);
    changed(2, |it| it.records[13] = 0);
    // The second token begins inside the first, and right at its end.
    changed(2, |it| it.records[6] = 2);
    changed(0, |it| it.records[6] = 3);
    changed(2, |it| it.records[18] = 2);
    changed(2, |it| it.records[16..].fill(255));
    changed(2, |it| it.text.truncate(8));
}

/// The bytes of entries, each with its last byte as given.
fn env(entries: &[(&str, u8)]) -> Vec<u8> {
    let mut ret = Vec::new();
    for (name, assoc) in entries {
        oracle::env::write(&mut ret, name.as_bytes(), 258, false);
        ret.pop();
        ret.push(*assoc);
    }
    ret
}

#[test]
fn answer_3() {
    let good = env(&[("f", 0), ("fo", 1), ("g", 0)]);
    changed(0, |it| it.env.clone_from(&good));
    changed(0, |it| it.env.clear());
    for length in 1..good.len() {
        let want = if [5, 11].contains(&length) { 0 } else { 3 };
        changed(want, |it| it.env = good[..length].to_vec());
    }
    changed(3, |it| it.env = env(&[("f", 2)]));
    changed(3, |it| it.env = env(&[("", 0)]));
    changed(3, |it| it.env = env(&[("fo", 0), ("f", 0)]));
    changed(3, |it| it.env = env(&[("f", 0), ("f", 0)]));
    changed(3, |it| it.env = env(&[("g", 0), ("f", 0)]));
    changed(0, |it| it.env = env(&[(&"n".repeat(255), 0)]));
    let names: Vec<String> = (1000..1257).map(|it| it.to_string()).collect();
    let many: Vec<(&str, u8)> = names.iter().map(|it| (it.as_str(), 0)).collect();
    changed(0, |it| it.env = env(&many[..256]));
    changed(3, |it| it.env = env(&many));
}

#[test]
fn order_of_checks() {
    let all = |it: &mut Case| {
        it.depth = 0;
        it.records[0] = 70;
        it.env = vec![0];
    };
    changed(1, all);
    changed(2, |it| {
        all(it);
        it.depth = 1;
    });
    changed(3, |it| {
        it.env = vec![0];
        it.scratch = 0;
    });
}

#[test]
fn order_of_limits() {
    let mut it = words(";");
    // The first mark takes both a level and a record.
    (it.depth, it.scratch) = (1, 8);
    assert_eq!(answer(&it), 4);
    (it.depth, it.scratch) = (2, 8);
    assert_eq!(answer(&it), 5);
    (it.depth, it.scratch, it.nodes, it.fin) = (6, 80, 19, 103);
    assert_eq!(answer(&it), 6);
    it.nodes = 20;
    assert_eq!(answer(&it), 9);
    it.fin = 104;
    assert_eq!(answer(&it), 0);
    it.finds = 7;
    assert_eq!(answer(&it), 7);
}

#[test]
fn strict_mode() {
    let mut it = words("infix 10 f infixr 9 g infixr 65536 h infix");
    it.mode = 2;
    let outcome = read(&it);
    let want = [(10, 0, 1, None), (3, 0, 7, None), (6, 10, 10, None)];
    assert_eq!(finds(&outcome), want);
    assert_eq!(entry(&outcome, "f"), Some((10, false)));
    // The finding comes before the token is read, so 7 goes before 5.
    let mut it = words("infix 10 f");
    (it.mode, it.finds, it.scratch) = (2, 0, 6 * 8);
    assert_eq!(answer(&it), 7);
    it.finds = 8;
    assert_eq!(answer(&it), 5);
    // A number elsewhere is none of a fixity.
    let mut it = words("nonfix f 10 + 11");
    it.mode = 2;
    assert_eq!(finds(&read(&it)), []);
}

/// `infix` or `nonfix` with so many names.
fn many_changes(keyword: &str, count: usize) -> Case {
    let mut toks = tok::line(keyword);
    toks.resize(count + 1, Tok::word("f"));
    case(&toks)
}

#[test]
fn fixity_changes() {
    for keyword in ["infix", "infixr", "nonfix"] {
        assert_eq!(answer(&many_changes(keyword, 1024)), 0);
        assert_eq!(answer(&many_changes(keyword, 1025)), 8);
    }
    // The starting environment's entries are no changes.
    assert_eq!(oracle::std_env().len(), 104);
}

#[test]
fn long_names() {
    for (keyword, length, want) in [("infix", 255, 0), ("infixr", 256, 8), ("nonfix", 256, 0)] {
        let mut toks = tok::line(keyword);
        toks.push(Tok::new(NAME, &"n".repeat(length)));
        assert_eq!(answer(&case(&toks)), want, "{keyword} {length}");
    }
}

#[test]
fn full_environment() {
    let names: Vec<String> = (1000..1256).map(|it| it.to_string()).collect();
    let many: Vec<(&str, u8)> = names.iter().map(|it| (it.as_str(), 0)).collect();
    let lines = [
        ("infix f", 8),
        ("infix name`1000", 0),
        ("nonfix name`1000 infix f", 0),
        ("nonfix f infix f", 8),
        ("let nonfix name`1000 infix f in f end", 0),
        ("let nonfix name`1000 infix f in f end infix f", 8),
    ];
    for (line, want) in lines {
        let mut case = words(line);
        case.env = env(&many);
        assert_eq!(answer(&case), want, "{line}");
    }
}

#[test]
fn scopes() {
    let lines = [
        ("let infix f in f end", None),
        ("structure S = struct infix f end", None),
        ("structure S = let infix f in T end", None),
        ("signature S = sig infix f end", None),
        ("structure S = F ( infix f )", None),
        ("local infix f in end", Some((0, false))),
        ("local in infixr 2 f end", Some((2, true))),
        ("abstype t = T with infix f end", Some((0, false))),
        ("functor F ( infix f ) = S", Some((0, false))),
        ("infix f nonfix f", None),
    ];
    for (line, of_f) in lines {
        assert_eq!(entry(&read(&words(line)), "f"), of_f, "{line}");
    }
}

/// A finding carries the token of its own name, not of one spelled alike.
#[test]
fn names_of_findings() {
    let outcome = read(&words(
        "x val + = + fun + x = 1 val 1 x = 2 fun ( y x y ) = 3",
    ));
    let want = [
        (2, 0, 2, Some(2)),
        (2, 0, 4, Some(4)),
        (2, 0, 6, Some(6)),
        (1, 0, 12, Some(12)),
        (1, 0, 19, Some(18)),
    ];
    assert_eq!(finds(&outcome), want);
    // Trivia count in places and indexes, and stand in no node.
    let toks = [Tok::new(tok::TRIVIA, "(**)"), Tok::word("+")];
    let outcome = read(&case(&toks));
    assert_eq!(finds(&outcome), [(2, 0, 1, Some(1))]);
    assert!(tree(&outcome).contains("NameStarEqDot(1)"));
}

#[test]
fn deep_nesting() {
    for word in [
        "(",
        "let val x =",
        "fn _ =>",
        "structure S = struct",
        "1 ::",
        "[",
        "if",
    ] {
        let mut case = words(&vec![word; 1500].join(" "));
        (case.scratch, case.finds) = (1 << 20, 1 << 20);
        assert_eq!(answer(&case), 4, "{word}");
    }
}

#[test]
fn not_utf8() {
    let mut case = case(&[Tok::word("é")]);
    case.records[3] = 1;
    assert_eq!(oracle::read(&case), Err(oracle::Trouble::NotUtf8));
    case.depth = 0;
    assert_eq!(answer(&case), 1);
}
