//! The stack of a call at depth 1,000: what is used, and the most that can be.

use cases::tok;
use compare::depth::used;
use oracle::Case;
use std::process::Command;

/// How a file begins, and words that nest when they are repeated.
const NESTS: &[(&str, &str)] = &[
    ("", "("),
    ("", "["),
    ("", "# ["),
    ("", "{ a ="),
    ("", "if"),
    ("", "case"),
    ("", "raise"),
    ("", "while"),
    ("", "1 ::"),
    ("", "f ("),
    ("", "1 :: ("),
    ("", "fn _ =>"),
    ("", "fn ( x :: y ) =>"),
    ("", "let val x ="),
    ("", "let fun f x ="),
    ("", "let in"),
    ("", "local"),
    ("", "local in"),
    ("", "abstype t = T with"),
    ("", "x handle y =>"),
    ("", "structure S = struct"),
    ("", "structure S : sig structure T : sig"),
    ("", "structure S = F ("),
    ("", "structure S = F ( struct"),
    ("", "signature S = sig"),
    ("", "signature S = sig include sig"),
    ("", "functor F ("),
    ("", "functor F ( X : sig"),
    ("", "let structure S = struct val x ="),
    ("val", "("),
    ("val", "["),
    ("val", "{ a ="),
    ("val", "x as"),
    ("val", "x ::"),
    ("val", "T ("),
    ("val", "# ["),
    ("val", "{ a : int as"),
    ("fun f", "("),
    ("fun f", "["),
    ("fun f", "( x ::"),
    ("fun f", "{ a ="),
    ("x :", "("),
    ("x :", "{ a :"),
    ("x :", "int ->"),
    ("x :", "( int ,"),
    ("datatype t = T of", "("),
    ("datatype t = T of", "{ a :"),
    ("datatype t = T of", "int ->"),
    ("structure S =", "F ("),
    ("structure S =", "let in"),
    ("structure S =", "struct structure T ="),
    ("signature S =", "sig structure T :"),
    ("signature S =", "sig include"),
];

fn nested(head: &str, words: &str) -> Case {
    let toks = tok::line(&format!("{head} {}", [words].repeat(1100).join(" ")));
    cases::standard(tok::plain(&toks), 1 << 20)
}

/// What is used stays far under what callers make ready.
#[test]
fn at_depth_1000() {
    let mut most = (0, "", "");
    for &(head, words) in NESTS {
        let (answer, bytes) = used(&nested(head, words));
        println!("{bytes:>9} answer {answer}: {head} {words}");
        assert_eq!(answer, 4, "{head} {words}");
        most = most.max((bytes, head, words));
    }
    println!("most: {most:?}");
    assert!(most.0 <= sml_reader::stack::NEED / 4);
}

/// The number that a line of assembly takes off the stack pointer.
fn taken(line: &str) -> usize {
    let Some((_, instruction)) = line.split_once('\t') else {
        return 0;
    };
    let mut words = instruction.split_whitespace();
    match (words.next(), words.next().unwrap_or_default()) {
        (Some("push"), _) => 8,
        (Some("sub"), operands) if operands.ends_with(",%rsp") => {
            let number = operands.trim_start_matches("$0x").trim_end_matches(",%rsp");
            usize::from_str_radix(number, 16).expect("a frame of a known size")
        }
        _ => 0,
    }
}

/// At each level a function is entered at most once, for `64 * left` and a
/// number of its own fall at every call (their `measure`). So the frames of all
/// functions, with their return addresses, bound a level.
#[test]
fn most_that_can_be() {
    let mut command = Command::new("objdump");
    command.args(["-d", "--no-show-raw-insn", sml_reader::ARCHIVE]);
    let output = command
        .output()
        .expect("objdump, which comes with the linker");
    let text = String::from_utf8(output.stdout).expect("assembly");
    let functions = text.lines().filter(|it| it.ends_with(">:")).count();
    let frames: usize = text.lines().map(taken).sum();
    println!("{functions} functions, {frames} bytes of frames");
    assert!(
        functions > 10 && frames > 1000,
        "the archive has its functions"
    );
    assert!(1001 * (frames + 8 * functions) < sml_reader::stack::NEED);
}
