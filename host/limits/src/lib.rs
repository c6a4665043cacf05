//! Stands in for no crate of the original: it holds what the stand-ins share,
//! the limits and the refusals. Made from document 01's rules.
//!
//! The given source makes its parser and its maps without any settings, so the
//! limits reach them by way of the thread.

use std::cell::Cell;

/// The most fixity changes that one reading may make.
const MOST_CHANGES: usize = 1024;

/// What a refused reading unwinds with: the number of the answer.
pub struct Refusal(pub u8);

/// Leaves the reading with an answer. No panic hook runs, since a refusal is an
/// outcome and not a failure.
pub fn refuse(answer: u8) -> ! {
    std::panic::resume_unwind(Box::new(Refusal(answer)))
}

/// The limits of one reading, counted in records and not in bytes.
#[derive(Clone, Copy)]
pub struct Limits {
    pub depth: usize,
    pub records: usize,
    pub findings: usize,
    /// Whether the mode is 2.
    pub strict: bool,
}

const NONE: Limits = Limits {
    depth: 0,
    records: 0,
    findings: 0,
    strict: false,
};

thread_local! {
    static LIMITS: Cell<Limits> = const { Cell::new(NONE) };
    static CHANGES: Cell<usize> = const { Cell::new(0) };
}

/// Begins a reading: these limits hold, and no fixity change has been made.
pub fn begin(limits: Limits) {
    LIMITS.set(limits);
    forget_changes();
}

/// Forgets the changes so far. An environment made outside of a reading needs
/// it too, or an earlier reading's changes might refuse its entries.
pub fn forget_changes() {
    CHANGES.set(0);
}

/// The limits of the reading under way.
#[must_use]
pub fn current() -> Limits {
    LIMITS.get()
}

/// The fixity changes made since the reading began.
#[must_use]
pub fn changes() -> usize {
    CHANGES.get()
}

/// Counts a fixity change, and refuses one too many.
pub fn count_change() {
    let changes = CHANGES.get() + 1;
    if changes > MOST_CHANGES {
        refuse(8);
    }
    CHANGES.set(changes);
}
