//! How much stack a call uses.

use crate::lent::{Buffers, call};
use oracle::Case;
use sml_reader::raw;
use std::ffi::c_void;
use std::ptr;

/// Linux's `pthread_attr_t` on x86-64: 56 bytes.
type Attributes = [u64; 7];

type Start = extern "C" fn(*mut c_void) -> *mut c_void;

unsafe extern "C" {
    fn pthread_attr_init(attributes: *mut Attributes) -> i32;
    fn pthread_attr_setstack(attributes: *mut Attributes, low: *mut c_void, len: usize) -> i32;
    fn pthread_create(
        thread: *mut u64,
        attributes: *const Attributes,
        start: Start,
        with: *mut c_void,
    ) -> i32;
    fn pthread_join(thread: u64, value: *mut *mut c_void) -> i32;
}

/// What stands on the stack before the call.
const PAINT: u64 = 0x5a5a_5a5a_5a5a_5a5a;

/// A case and its buffers, handed to the thread.
struct Work<'a> {
    case: &'a Case,
    buffers: Buffers,
    answer: u8,
}

extern "C" fn enter(work: *mut c_void) -> *mut c_void {
    // SAFETY: `used` hands over its own work and waits for this thread.
    let work = unsafe { &mut *work.cast::<Work<'_>>() };
    // SAFETY: The stack is as large as asked.
    work.answer = unsafe { raw::enter(&call(work.case), work.buffers.room(), &mut [0; 3]) };
    ptr::null_mut()
}

/// The answer to a case, and the bytes of stack that its call used, those of
/// the thread's start among them: the stack is painted, and the lowest spot
/// that is another afterwards was used.
///
/// # Panics
///
/// If the system gives no such thread.
#[must_use]
pub fn used(case: &Case) -> (u8, usize) {
    let mut work = Work {
        case,
        buffers: Buffers::new(case),
        answer: u8::MAX,
    };
    let mut stack = vec![PAINT; (sml_reader::stack::NEED + (1 << 20)) / 8];
    let mut attributes = [0; 7];
    let mut thread = 0;
    // SAFETY: The stack and the work outlive the thread, which is joined.
    let failed = unsafe {
        let low = stack.as_mut_ptr().cast();
        pthread_attr_init(&raw mut attributes)
            | pthread_attr_setstack(&raw mut attributes, low, 8 * stack.len())
            | pthread_create(
                &raw mut thread,
                &raw const attributes,
                enter,
                (&raw mut work).cast(),
            )
            | pthread_join(thread, ptr::null_mut())
    };
    assert_eq!(failed, 0, "no thread with a stack of our own");
    let unused = stack.iter().take_while(|&&it| it == PAINT).count();
    (work.answer, 8 * (stack.len() - unused))
}
