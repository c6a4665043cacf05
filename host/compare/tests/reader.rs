//! The crate `sml_reader` as its callers use it.

use cases::{Family, tok};
use oracle::Case;
use sml_reader::{Mode, NodeKind, Read, Refusal, STANDARD, Settings, Step, TokenKind};
use sml_syntax::kind::SyntaxKind;
use std::thread;

fn read(line: &str) -> Result<Read, Refusal> {
    let laid = tok::plain(&tok::line(line));
    sml_reader::read(&laid.text, &laid.records, STANDARD, Settings::default())
}

#[test]
fn standard_environment() {
    assert_eq!(STANDARD, oracle::std_env());
}

#[test]
fn names_of_token_kinds() {
    for (number, kind) in SyntaxKind::tokens().iter().enumerate() {
        let name = kind.to_string();
        let wanted = match name.as_str() {
            "Trivia" => "trivia",
            "Other" => "other",
            other => other.trim_end_matches("Kw"),
        };
        assert_eq!(TokenKind(number as u8).name(), Some(wanted));
    }
    assert_eq!(TokenKind(70).name(), None);
}

#[test]
fn names_of_node_kinds() {
    for (number, kind) in SyntaxKind::nodes().iter().enumerate() {
        let number = NodeKind(number as u8);
        assert_eq!(number.name(), Some(kind.to_string().as_str()));
        assert_eq!(NodeKind::named(&kind.to_string()), Some(number));
    }
    assert_eq!(NodeKind(SyntaxKind::nodes().len() as u8).name(), None);
}

#[test]
fn numbers_of_refusals() {
    for (place, refusal) in Refusal::ALL.into_iter().enumerate() {
        assert_eq!(usize::from(refusal.number()), place + 1);
        assert_eq!(Refusal::of_number(refusal.number()), Some(refusal));
    }
    assert_eq!(Refusal::of_number(0), None);
    assert_eq!(Refusal::of_number(11), None);
}

#[test]
fn what_a_line_gives() {
    let file = read("infix 5 %% ; 1 :: 2 %% 3").expect("a reading");
    let infix = NodeKind::named("InfixExp").expect("a kind");
    let opened = file.nodes().filter(|&it| it == Step::Open(infix)).count();
    assert_eq!(opened, 2);
    let found: Vec<_> = file.findings().collect();
    assert_eq!(found.len(), 1);
    assert_eq!(
        (found[0].code(), found[0].place, found[0].name),
        (3005, 7, None)
    );
    let added = file.environment().find(|it| it.name == b"%%");
    assert_eq!(added.map(|it| (it.precedence, it.right)), Some((5, false)));
    assert_eq!(file.environment().count(), 19);
}

#[test]
fn refusals() {
    let many = "infix ".to_owned() + &"f ".repeat(1025);
    assert_eq!(read(&many), Err(Refusal::Fixities));
    assert_eq!(read(&"( ".repeat(1000)), Err(Refusal::Depth));
    let settings = Settings {
        depth: 1001,
        mode: Mode::Plain,
    };
    let read = |text: &[u8], records: &[u8], env: &[u8], settings| {
        sml_reader::read(text, records, env, settings).map(|_| ())
    };
    assert_eq!(read(b"", &[], STANDARD, settings), Err(Refusal::Settings));
    let plain = Settings::default();
    assert_eq!(read(b"", &[0; 5], STANDARD, plain), Err(Refusal::Records));
    assert_eq!(read(b"", &[], &[0], plain), Err(Refusal::Environment));
    assert_eq!(read(b"", &[], &[], plain), Ok(()));
}

/// The source's outcome with ample rooms, and the crate's.
fn check(case: &Case) {
    let mode = if case.mode == 2 {
        Mode::Strict
    } else {
        Mode::Plain
    };
    let depth = case.depth;
    let settings = Settings { depth, mode };
    let ours = sml_reader::read(&case.text, &case.records, &case.env, settings);
    let mut ample = case.clone();
    (ample.scratch, ample.nodes, ample.finds, ample.fin) = (1 << 24, 1 << 24, 1 << 24, 1 << 24);
    let theirs = oracle::read(&ample).expect("an outcome");
    match ours {
        Err(refusal) => assert_eq!(refusal.number(), theirs.answer),
        Ok(read) => {
            assert_eq!(theirs.answer, 0);
            assert_eq!(read.node_bytes(), theirs.nodes);
            assert_eq!(read.finding_bytes(), theirs.finds);
            assert_eq!(read.environment_bytes(), theirs.env);
        }
    }
}

/// Buffers grow until they suffice, whatever it takes.
#[test]
fn buffers_suffice() {
    let families = [
        Family::Soup,
        Family::Program,
        Family::Entries,
        Family::Changes,
        Family::Deep,
        Family::Long,
    ];
    for (place, family) in families.into_iter().cycle().take(600).enumerate() {
        check(&cases::make(3, place as u64, 60, Some(family)).1);
    }
    // Only closing tokens: a finding for each.
    let laid = tok::plain(&tok::line(&") ".repeat(13_107)));
    let mut case = cases::make(3, 0, 1, Some(Family::Program)).1;
    (case.text, case.records) = (laid.text, laid.records);
    check(&case);
}

/// A caller with hardly any stack reads what is nested 1,000 deep.
#[test]
fn from_a_small_stack() {
    let small = thread::Builder::new().stack_size(32 << 10);
    let worker = small.spawn(|| {
        let laid = tok::plain(&tok::line(&"1 :: ".repeat(2000)));
        let settings = Settings::default();
        sml_reader::read(&laid.text, &laid.records, STANDARD, settings).map(|_| ())
    });
    let worker = worker.expect("a thread");
    assert_eq!(worker.join().expect("no panic"), Err(Refusal::Depth));
}

/// Goes down the stack, so far that no call has its stack any more.
fn down(stack: &sml_reader::Stack, levels: u32) -> usize {
    let local = std::hint::black_box([levels as u8; 4096]);
    if levels == 0 {
        let call = sml_reader::Call {
            text: b"",
            records: &[],
            environment: STANDARD,
            depth: 1,
            mode: 1,
        };
        return stack.read(&call).map_or(0, |it| it.node_bytes().len());
    }
    down(stack, levels - 1) + usize::from(local[7] == 255)
}

#[test]
fn stack_is_looked_at() {
    assert_eq!(sml_reader::with_stack(|stack| down(stack, 10)), 8);
    let panic = thread::spawn(|| sml_reader::with_stack(|stack| down(stack, 300)));
    assert!(
        panic.join().is_err(),
        "the stack was used up before the call"
    );
}
