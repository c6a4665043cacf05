//! A stack that is large enough for any call.
//!
//! The parser's calls nest with what it reads, up to the depth. A caller's
//! stack may be nearly used up, so calls go by a [`Stack`], which only a thread
//! made here has.

use std::marker::PhantomData;
use std::panic::resume_unwind;
use std::thread;

/// The bytes of stack that a call may use. At each level of depth a function of
/// the archive is entered at most once, and the frames of all of them together
/// take 57,952 bytes: at depth 1,000 that is less. What is used in fact is far
/// less again; the test `stack` of `compare` measures it.
pub const NEED: usize = 64 << 20;

/// What the caller's own work on that thread may use beside it.
const SPARE: usize = 1 << 20;

/// The leave to call the parser on this thread. It can't leave the thread.
#[derive(Debug)]
pub struct Stack {
    top: usize,
    here: PhantomData<*const ()>,
}

impl Stack {
    /// Whether a call has the stack that it needs.
    pub(crate) fn is_left(&self) -> bool {
        self.top.saturating_sub(place()) <= SPARE
    }
}

/// Where the stack is at.
#[inline(never)]
fn place() -> usize {
    let local = 0_u8;
    (&raw const local).addr()
}

/// Does some work on a thread of its own, with a stack for calls. Pages of it
/// that are not used cost nothing.
///
/// # Panics
///
/// If the work panics, or if the system has no thread to give.
pub fn with_stack<T: Send>(work: impl FnOnce(&Stack) -> T + Send) -> T {
    let run = || {
        work(&Stack {
            top: place(),
            here: PhantomData,
        })
    };
    thread::scope(|scope| {
        // Twice the spare: the thread's own start takes a part of its stack.
        let builder = thread::Builder::new().stack_size(NEED + 2 * SPARE);
        let worker = builder.spawn_scoped(scope, run);
        let worker = worker.expect("the system has no thread to give");
        worker.join().unwrap_or_else(|panic| resume_unwind(panic))
    })
}
