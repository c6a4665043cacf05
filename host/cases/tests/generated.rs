//! Facts about generated cases. The stand-in's own assertions run beside them:
//! one that fails is a `Trouble`.

mod help;

use cases::tok::TRIVIA;
use cases::{FAMILIES, Family};
use oracle::{Case, Outcome};
use std::collections::BTreeSet;

const SEED: u64 = 77;
const COUNT: u64 = 20_000;

/// The kinds and indexes of the tokens that stand in nodes.
fn real_tokens(case: &Case) -> Vec<(u8, u16)> {
    let kinds = case.records.chunks_exact(5).map(|it| it[0]);
    let indexed = kinds.zip(0..);
    indexed.filter(|it| it.0 != TRIVIA).collect()
}

/// Nodes open and close in pairs and hold each token once and in order.
fn check_nodes(case: &Case, outcome: &Outcome) {
    let mut open = Vec::new();
    let mut tokens = Vec::new();
    for (place, record) in outcome.nodes.chunks_exact(4).enumerate() {
        match record[0] {
            1 => open.push(record[1]),
            2 => tokens.push((record[1], u16::from_le_bytes([record[2], record[3]]))),
            3 => assert_eq!(open.pop(), Some(record[1])),
            other => panic!("a record of sort {other}"),
        }
        let last = 4 * (place + 1) == outcome.nodes.len();
        assert_eq!(open.is_empty(), last, "the root holds all");
    }
    assert_eq!(tokens, real_tokens(case));
}

fn check_finds(case: &Case, outcome: &Outcome) {
    let count = (case.records.len() / 5) as u16;
    let mut last = 0;
    for (number, detail, place, name) in help::finds(outcome) {
        assert!(place <= count && place >= last, "places never fall");
        last = place;
        assert_eq!(name.is_some(), number <= 2);
        assert_eq!(detail != 0, number == 6 || number == 9);
        assert!(number < 10 || case.mode == 2);
        if let Some(name) = name {
            assert!([9, 10, 61].contains(&case.records[5 * usize::from(name)]));
        }
    }
}

fn check(case: &Case, outcome: &Outcome) {
    if outcome.answer == 0 {
        check_nodes(case, outcome);
        check_finds(case, outcome);
        assert!(oracle::env::entries(&outcome.env).is_some());
    } else {
        let used = outcome.nodes.len() + outcome.finds.len() + outcome.env.len();
        assert_eq!(used, 0);
    }
}

#[test]
fn mixed() {
    let mut answers = BTreeSet::new();
    let mut families = BTreeSet::new();
    for index in 0..COUNT {
        let (family, case) = cases::make(SEED, index, 40, None);
        let outcome = help::read(&case);
        check(&case, &outcome);
        assert!(family != Family::Exact || outcome.answer == 0);
        answers.insert(outcome.answer);
        families.insert(family);
    }
    assert_eq!(answers, (0..=9).collect());
    let wanted = FAMILIES.iter().filter(|it| it.2 > 0);
    assert_eq!(families, wanted.map(|it| it.0).collect());
}

#[test]
fn each_family_alone() {
    for (family, name, _) in FAMILIES {
        assert_eq!(cases::family(name), Some(family));
        let mut answers = BTreeSet::new();
        for index in 0..40 {
            let case = cases::make(SEED, index, 40, Some(family)).1;
            let outcome = help::read(&case);
            check(&case, &outcome);
            answers.insert(outcome.answer);
        }
        assert!(answers.contains(&0), "{name} has no case that is read");
    }
}

/// Trivia change nothing but the indexes.
#[test]
fn without_trivia() {
    for index in 0..1000 {
        let case = cases::make(SEED, index, 40, Some(Family::Damaged)).1;
        let records = case.records.chunks_exact(5);
        let mut bare = case.clone();
        bare.records = records
            .filter(|it| it[0] != TRIVIA)
            .flatten()
            .copied()
            .collect();
        let (with, without) = (help::read(&case), help::read(&bare));
        assert_eq!(with.answer, without.answer);
        assert_eq!(with.env, without.env);
        let kinds = |it: &Outcome| -> Vec<u8> {
            let records = it.nodes.chunks_exact(4);
            records.flat_map(|it| [it[0], it[1]]).collect()
        };
        assert_eq!(kinds(&with), kinds(&without));
    }
}

#[test]
fn same_seed_same_cases() {
    for index in 0..200 {
        let one = cases::make(SEED, index, 40, None).1;
        let other = cases::make(SEED, index, 40, None).1;
        assert_eq!(format!("{one:?}"), format!("{other:?}"));
    }
}

/// The rooms stay modest, and so do the counts of tokens.
#[test]
fn sizes() {
    for index in 0..2000 {
        let (family, case) = cases::make(SEED, index, 40, None);
        let rooms = [case.scratch, case.nodes, case.finds, case.fin];
        assert!(rooms.iter().all(|&it| it <= cases::ROOM), "{family:?}");
        assert!(case.records.len() <= 5 * 41, "{family:?}");
    }
}
