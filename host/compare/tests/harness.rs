//! That the comparison can fail: guard pages end a process that touches them,
//! and a byte that differs is seen.

use cases::tok;
use compare::call::Caller;
use compare::difference;
use compare::guard::{Arena, Side};
use oracle::Case;
use std::os::unix::process::ExitStatusExt as _;
use std::process::Command;

/// Tells a test that it runs in a process of its own, and what to do there.
const VARIABLE: &str = "TOUCH";

fn touch(what: &str) {
    let side = if what.contains("front") {
        Side::Front
    } else {
        Side::Back
    };
    let mut arena = Arena::new(100);
    arena.place_copy(&[1; 100], side);
    if what.contains("outside") {
        arena.place(100, side);
    }
    let pointer = match (what.contains("outside"), side) {
        (true, Side::Front) => arena.pointer().wrapping_sub(1),
        (true, Side::Back) => arena.pointer().wrapping_add(100),
        (false, _) => arena.pointer(),
    };
    // SAFETY: It is none: this process is to end here.
    unsafe {
        if what.contains("read") {
            std::hint::black_box(pointer.read_volatile());
        } else {
            pointer.write_volatile(1);
        }
    }
}

/// A byte read or written outside of a buffer, or written where bytes are lent
/// to read, ends the process by a signal; one read there does not.
#[test]
fn guard_pages() {
    if let Ok(what) = std::env::var(VARIABLE) {
        return touch(&what);
    }
    let program = std::env::current_exe().expect("this program");
    let ends = |what: &str| {
        let mut command = Command::new(&program);
        command.args(["--exact", "guard_pages"]).env(VARIABLE, what);
        command.output().expect("a process").status.signal()
    };
    for side in ["front", "back"] {
        assert_eq!(ends(&format!("read outside {side}")), Some(11));
        assert_eq!(ends(&format!("write outside {side}")), Some(11));
        assert_eq!(ends(&format!("write inside {side}")), Some(11));
        assert_eq!(ends(&format!("read inside {side}")), None);
    }
}

#[test]
fn marked_bytes() {
    for side in [Side::Front, Side::Back] {
        let mut arena = Arena::new(100);
        arena.place(100, side).fill(3);
        assert!(arena.is_whole());
        let beside = match side {
            Side::Front => arena.pointer().wrapping_add(100),
            Side::Back => arena.pointer().wrapping_sub(1),
        };
        // SAFETY: A byte of the arena, not of its buffer.
        unsafe { beside.write(0) };
        assert!(!arena.is_whole());
    }
}

fn words(line: &str) -> Case {
    let mut ret = cases::roomy(tok::plain(&tok::line(line)), oracle::std_env());
    ret.mode = 2;
    ret
}

/// Two lines that differ in one thing each, one read by the source and the
/// other by the archive.
#[test]
fn differences() {
    let pairs = [
        ("1 + 2 * 3", "1 * 2 + 3", "nodes"),
        ("infix 5 f", "infix 10 f", "findings"),
        ("infix 5 f", "infix 6 f", "environment"),
    ];
    sml_reader::with_stack(|_| {
        let mut caller = Caller::default();
        let mut rng = cases::rng::Rng::new(1, 1);
        for (one, other, what) in pairs {
            let theirs = oracle::read(&words(one)).expect("an outcome");
            let ours = caller.call(&words(other), Side::Back, &mut rng);
            let found = difference(&theirs, &ours.expect("a call in order"));
            assert!(found.is_some_and(|it| it.contains(what)), "{one}, {other}");
        }
        let mut narrow = words("1 + 2");
        narrow.nodes = 3;
        let theirs = oracle::read(&words("1 + 2")).expect("an outcome");
        let ours = caller.call(&narrow, Side::Front, &mut rng);
        let found = difference(&theirs, &ours.expect("a call in order"));
        assert_eq!(found.as_deref(), Some("answers 0 and 6"));
    });
}
