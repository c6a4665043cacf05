//! Every length of every buffer from 0 to what a case needs and beyond, and
//! every depth.

use cases::rng::Rng;
use cases::{Family, tok};
use compare::call::Caller;
use compare::{Verdict, compare};
use oracle::{Case, Needs};

/// Document 01's lines, and lines that hold findings, take them back, change
/// fixities in scopes, or fail in several ways.
const LINES: &[&str] = &[
    "",
    ";",
    "val x = 1 ; ;",
    "1 + 2 * 3",
    "infix 5 %% ; 1 :: 2 %% 3",
    "infix ~1 f",
    "infix 65536 f",
    "infix",
    "fun f x = x",
    "fun ( f o g ) x = f ( g x ) | f + g = ( f",
    "local infix 3 f in end ; 1 f 2",
    "val x = ( y : ( int ) = 3 )",
    "let infix 3 f nonfix + in 1 f 2 + 3 end ) ; nonfix * ; x f y",
    "structure S = struct infixr 70000 ++ val x = op + 1 ++ raise 2 end",
];

/// A case with room for all that it needs.
fn words(line: &str) -> Case {
    let mut ret = cases::roomy(tok::plain(&tok::line(line)), oracle::std_env());
    ret.mode = 2;
    ret
}

fn needs(case: &Case) -> Needs {
    let needs = oracle::needs(case).expect("an outcome");
    needs.expect("a reading")
}

/// Sets one limit of a case.
type Set = fn(&mut Case, usize);

/// The case with one limit at each of its values, the others at their needs
/// and `spare` more.
fn around(case: &Case, needs: Needs, spare: usize) -> Vec<Case> {
    let limits: [(Set, usize); 5] = [
        (|it, to| it.depth = to as u64, needs.depth as usize + 1),
        (|it, to| it.scratch = to, needs.scratch + 9),
        (|it, to| it.nodes = to, needs.nodes + 5),
        (|it, to| it.finds = to, needs.finds + 9),
        (|it, to| it.fin = to, needs.fin + 1),
    ];
    let mut exact = case.clone();
    exact.depth = needs.depth;
    (exact.scratch, exact.nodes) = (needs.scratch + spare, needs.nodes + spare);
    (exact.finds, exact.fin) = (needs.finds + spare, needs.fin + spare);
    let values = limits
        .into_iter()
        .flat_map(|(set, most)| (0..=most).map(move |to| (set, to)));
    let with = |(set, to): (Set, usize)| {
        let mut case = exact.clone();
        set(&mut case, to);
        case
    };
    values.map(with).collect()
}

/// Compares them all, and gives their count.
fn check(caller: &mut Caller, case: &Case, rng: &mut Rng) -> usize {
    let needs = needs(case);
    let all: Vec<Case> = [0, 8]
        .iter()
        .flat_map(|&it| around(case, needs, it))
        .collect();
    let mut read = 0;
    for case in &all {
        match compare(caller, case, rng) {
            Verdict::Same(answer) => read += usize::from(answer == 0),
            other => panic!("{other:?} at {}", compare::shrink::show(case)),
        }
    }
    assert!(read > 0 && read < all.len());
    all.len()
}

#[test]
fn lines() {
    sml_reader::with_stack(|_| {
        let mut caller = Caller::default();
        let mut rng = Rng::new(1, 1);
        for line in LINES {
            check(&mut caller, &words(line), &mut rng);
        }
    });
}

#[test]
fn generated() {
    sml_reader::with_stack(|_| {
        let mut caller = Caller::default();
        let mut rng = Rng::new(1, 2);
        let mut count = 0;
        for index in 0..12 {
            let case = cases::make(7, index, 20, Some(Family::Exact)).1;
            count += check(&mut caller, &case, &mut rng);
        }
        assert!(count > 10_000);
    });
}

/// A full environment, and names of 255 bytes: what is copied out is long.
#[test]
fn entries() {
    sml_reader::with_stack(|_| {
        let mut caller = Caller::default();
        let mut rng = Rng::new(1, 3);
        let all = (0..).map(|index| cases::make(7, index, 40, Some(Family::Entries)).1);
        let read = all.filter(|it| matches!(oracle::read(it), Ok(outcome) if outcome.answer == 0));
        for case in read.take(3) {
            check(&mut caller, &case, &mut rng);
        }
    });
}

/// More scratch than there are numbers of four bytes for its records: the first
/// part is used, and all of it is zero afterwards. To be asked for, since it
/// takes 2 GiB: `cargo test --release -p compare --test limits -- --ignored`.
#[test]
#[ignore = "it takes 2 GiB"]
fn huge_scratch() {
    let case = words("1 + 2 * 3");
    let needs = needs(&case);
    let mut scratch = vec![1; 2_147_483_640 + 17];
    let (mut nodes, mut findings, mut environment) = (vec![1; 4096], vec![1; 1024], vec![1; 2048]);
    let used = sml_reader::with_stack(|stack| {
        let room = sml_reader::Room {
            scratch: &mut scratch,
            nodes: &mut nodes,
            findings: &mut findings,
            environment: &mut environment,
        };
        stack.read_into(&compare::lent::call(&case), room)
    });
    assert_eq!(used.map(|it| it.nodes), Ok(needs.nodes));
    assert!(scratch.iter().all(|&it| it == 0));
    let theirs = oracle::read(&case).expect("an outcome");
    assert_eq!(nodes[..needs.nodes], theirs.nodes);
    assert!(nodes[needs.nodes..].iter().all(|&it| it == 0));
}
