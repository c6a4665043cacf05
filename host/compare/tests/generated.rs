//! Generated cases on the source and on the archive. The command `compare` runs
//! any number of them.

use cases::rng::Rng;
use cases::{FAMILIES, Family};
use compare::call::Caller;
use compare::guard::Side;
use compare::shrink::{show, shrink};
use compare::{Verdict, compare, difference};
use std::collections::BTreeSet;

const SEED: u64 = 20_261_115;

/// Runs so many cases and gives the answers that were seen.
fn run(count: u64, tokens: usize, family: Option<Family>) -> BTreeSet<u8> {
    sml_reader::with_stack(|_| {
        let mut caller = Caller::default();
        let mut answers = BTreeSet::new();
        for index in 0..count {
            let (_, case) = cases::make(SEED, index, tokens, family);
            let mut rng = Rng::new(SEED, !index);
            match compare(&mut caller, &case, &mut rng) {
                Verdict::Same(answer) => _ = answers.insert(answer),
                Verdict::Untried(why) => panic!("case {index} has no outcome: {why}"),
                Verdict::Differs(what) => {
                    let small = show(&shrink(&mut caller, &case, &mut rng));
                    panic!("case {index} differs: {what}; smaller: {small}");
                }
            }
        }
        answers
    })
}

#[test]
fn twenty_thousand() {
    assert_eq!(run(20_000, 40, None), (0..=9).collect());
}

#[test]
fn many_tokens() {
    assert!(run(1000, 400, None).contains(&0));
    assert!(run(100, 3000, None).contains(&0));
}

/// The families that come only when they are asked for are among these.
#[test]
fn each_family() {
    for (family, name, _) in FAMILIES {
        let answers = run(200, 40, Some(family));
        assert!(answers.contains(&0), "{name} has no case that is read");
    }
}

/// The bytes where the second byte of each `é` is one that is in no UTF-8.
fn broken(bytes: &[u8]) -> Vec<u8> {
    let byte = |it: &u8| if *it == 0xa9 { 0xff } else { *it };
    bytes.iter().map(byte).collect()
}

/// The source takes UTF-8 alone. A text that is none is read like the text of
/// which it is a copy but for one byte, where the environment has it too.
#[test]
fn not_utf8() {
    let count = sml_reader::with_stack(|_| {
        let mut caller = Caller::default();
        let mut count = 0;
        for index in 0..4000 {
            let (_, mut case) = cases::make(SEED, index, 40, Some(Family::Infix));
            let mut theirs = oracle::read(&case).expect("an outcome");
            theirs.env = broken(&theirs.env);
            (case.text, case.env) = (broken(&case.text), broken(&case.env));
            let ours = caller.call(&case, Side::Back, &mut Rng::new(SEED, index));
            let ours = ours.expect("a call in order");
            assert_eq!(difference(&theirs, &ours), None, "case {index}");
            count += usize::from(str::from_utf8(&case.text).is_err());
        }
        count
    });
    assert!(count > 500, "{count} texts are no UTF-8");
}
