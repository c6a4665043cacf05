//! Document 01's lines to try, with the limits that it names.

mod help;

use help::{answer, entry, finds, read, tree, words};
use oracle::Needs;

/// The number of entries in a final environment.
fn entries(outcome: &oracle::Outcome) -> usize {
    let entries = oracle::env::entries(&outcome.env);
    entries.expect("an environment in the form").len()
}

fn needs(line: &str) -> Needs {
    let needs = oracle::needs(&words(line)).expect("an outcome");
    needs.expect("a reading")
}

#[test]
fn line_1_empty_file() {
    let mut case = words("");
    (case.depth, case.scratch) = (1, 16);
    assert_eq!(tree(&read(&case)), "Root()");
    case.scratch = 15;
    assert_eq!(answer(&case), 5);
}

#[test]
fn line_2_semicolon() {
    let mut case = words(";");
    (case.depth, case.scratch, case.nodes) = (6, 80, 20);
    let outcome = read(&case);
    assert_eq!(tree(&outcome), "Root(DecWithTail() 0)");
    assert_eq!(outcome.nodes.len(), 20);
    assert_eq!(finds(&outcome), [(6, 9, 0, None)]);
    assert_eq!(entries(&outcome), 18);
    case.depth = 5;
    assert_eq!(answer(&case), 4);
    (case.depth, case.scratch) = (6, 79);
    assert_eq!(answer(&case), 5);
    (case.scratch, case.nodes) = (80, 19);
    assert_eq!(answer(&case), 6);
}

/// The tree of `val x = 1 ;` up to where a declaration list ends.
const VAL: &str = "Dec(DecWithTail(DecInSeq(ValDec(0 \
    ValBind(ConPat(Path(NameStarEqDot(1))) EqExp(2 SConExp(3)))) 4)) 5) DecWithTail()";

#[test]
fn line_3_two_semicolons() {
    let outcome = read(&words("val x = 1 ; ;"));
    assert_eq!(tree(&outcome), format!("Root({VAL})"));
    assert_eq!(finds(&outcome), []);
}

#[test]
fn line_4_three_semicolons() {
    let outcome = read(&words("val x = 1 ; ; ;"));
    assert_eq!(tree(&outcome), format!("Root({VAL} DecWithTail() 6)"));
    assert_eq!(finds(&outcome), [(6, 9, 6, None)]);
}

/// The tree of a file with one expression.
fn one_exp(exp: &str) -> String {
    format!("Root(Dec(DecWithTail(DecInSeq(ExpDec({exp})))) DecWithTail())")
}

/// Three numbers, and the second operator inside on the right.
const INNER_RIGHT: &str = "InfixExp(SConExp(0) 1 InfixExp(SConExp(2) 3 SConExp(4)))";

#[test]
fn lines_5_and_6_right_child() {
    for line in ["1 + 2 * 3", "1 :: 2 @ 3"] {
        let outcome = read(&words(line));
        assert_eq!(tree(&outcome), one_exp(INNER_RIGHT), "{line}");
        assert_eq!(finds(&outcome), [], "{line}");
    }
}

#[test]
fn line_7_mixed_tie() {
    let outcome = read(&words("infix 5 %% ; 1 :: 2 %% 3"));
    let exp = "InfixExp(SConExp(4) 5 InfixExp(SConExp(6) 7 SConExp(8)))";
    let fixity = "DecInSeq(InfixDec(0 1 2) 3)";
    let all = format!("{fixity} DecInSeq(ExpDec({exp}))");
    assert_eq!(
        tree(&outcome),
        format!("Root(Dec(DecWithTail({all})) DecWithTail())")
    );
    assert_eq!(finds(&outcome), [(5, 0, 7, None)]);
}

#[test]
fn lines_8_to_10_fixities() {
    let lines = [
        ("infix ~1 f", Some((0, false)), vec![(4, 0, 1, None)]),
        ("infix 65536 f", Some((0, false)), vec![(3, 0, 1, None)]),
        ("infix 65535 f", Some((65_535, false)), vec![]),
        ("infix 10 f", Some((10, false)), vec![]),
        ("infix", None, vec![(6, 10, 1, None)]),
    ];
    for (line, of_f, found) in lines {
        let outcome = read(&words(line));
        assert_eq!(entry(&outcome, "f"), of_f, "{line}");
        assert_eq!(finds(&outcome), found, "{line}");
    }
}

#[test]
fn line_11_fun_head() {
    let mut case = words("fun f x = x");
    case.finds = 16;
    let outcome = read(&case);
    assert_eq!((outcome.answer, finds(&outcome)), (0, vec![]));
    case.finds = 15;
    assert_eq!(answer(&case), 7);
    assert_eq!(needs("fun f x = x").finds, 16);
}

#[test]
fn line_12_local_fixity() {
    let outcome = read(&words("local infix 3 f in end ; 1 f 2"));
    let exp = "ExpDec(InfixExp(SConExp(7) 8 SConExp(9)))";
    assert!(tree(&outcome).contains(exp), "{}", tree(&outcome));
    assert_eq!(finds(&outcome), []);
}

#[test]
fn line_13_typed_operand() {
    let outcome = read(&words("val x = ( y : ( int ) = 3 )"));
    assert_eq!((outcome.answer, finds(&outcome)), (0, vec![]));
    assert!(tree(&outcome).contains("InfixExp(TypedExp("));
}
