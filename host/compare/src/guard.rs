//! Buffers between pages that nobody may touch.
//!
//! A byte read or written outside of a buffer ends the process, on the side
//! where the buffer meets such a page. On its other side there are marked bytes.

use std::ffi::c_void;
use std::ptr;

unsafe extern "C" {
    fn mmap(
        at: *mut c_void,
        len: usize,
        prot: i32,
        flags: i32,
        file: i32,
        from: i64,
    ) -> *mut c_void;
    fn mprotect(at: *mut c_void, len: usize, prot: i32) -> i32;
    fn munmap(at: *mut c_void, len: usize) -> i32;
}

/// Linux's numbers on x86-64, for which the archive is.
const NONE: i32 = 0;
const READ: i32 = 1;
const READ_WRITE: i32 = 3;
const PRIVATE_ANONYMOUS: i32 = 0x22;
const PAGE: usize = 4096;

/// How many bytes beside a buffer are marked, and with what.
const MARKED: usize = 64;
const MARK: u8 = 0xa7;

/// Which end of a buffer meets a page that nobody may touch.
#[derive(Debug, Clone, Copy, PartialEq, Eq)]
pub enum Side {
    Front,
    Back,
}

/// Pages for one buffer at a time.
pub struct Arena {
    base: *mut u8,
    size: usize,
    at: usize,
    len: usize,
}

impl Arena {
    /// Room for buffers of up to so many bytes.
    ///
    /// # Panics
    ///
    /// If the system has no pages to give.
    #[must_use]
    pub fn new(most: usize) -> Self {
        let size = (most + MARKED).next_multiple_of(PAGE);
        // SAFETY: New pages, of which the inner ones are made usable.
        let base = unsafe {
            let whole = size + 2 * PAGE;
            let base = mmap(ptr::null_mut(), whole, NONE, PRIVATE_ANONYMOUS, -1, 0);
            assert_ne!(base.addr(), usize::MAX, "the system has no pages to give");
            base.cast::<u8>().add(PAGE)
        };
        let ret = Self {
            base,
            size,
            at: 0,
            len: 0,
        };
        ret.protect(READ_WRITE);
        ret
    }

    fn protect(&self, prot: i32) {
        // SAFETY: These are our pages.
        let done = unsafe { mprotect(self.base.cast(), self.size, prot) };
        assert_eq!(done, 0, "the pages can't be protected");
    }

    /// Places a buffer, whose bytes are whatever they were.
    ///
    /// # Panics
    ///
    /// If the buffer is too long for the arena.
    pub fn place(&mut self, len: usize, side: Side) -> &mut [u8] {
        assert!(len + MARKED <= self.size, "{len} bytes are too many");
        self.protect(READ_WRITE);
        self.len = len;
        self.at = match side {
            Side::Front => 0,
            Side::Back => self.size - len,
        };
        self.beside().fill(MARK);
        self.bytes()
    }

    /// Places a copy of these bytes that may not be written.
    pub fn place_copy(&mut self, bytes: &[u8], side: Side) {
        self.place(bytes.len(), side).copy_from_slice(bytes);
        self.protect(READ);
    }

    /// The buffer.
    pub fn bytes(&mut self) -> &mut [u8] {
        // SAFETY: `place` made it lie within our pages.
        unsafe { std::slice::from_raw_parts_mut(self.pointer(), self.len) }
    }

    /// Where the buffer is.
    #[must_use]
    pub fn pointer(&mut self) -> *mut u8 {
        // SAFETY: As above.
        unsafe { self.base.add(self.at) }
    }

    /// The marked bytes beside the buffer.
    fn beside(&mut self) -> &mut [u8] {
        let from = if self.at == 0 {
            self.len
        } else {
            self.at - MARKED
        };
        // SAFETY: A buffer leaves room for them, and they are not of it.
        unsafe { std::slice::from_raw_parts_mut(self.base.add(from), MARKED) }
    }

    /// Whether the marked bytes are as they were.
    pub fn is_whole(&mut self) -> bool {
        self.beside().iter().all(|&it| it == MARK)
    }
}

impl Drop for Arena {
    fn drop(&mut self) {
        // SAFETY: These pages are ours, and nobody has them after us.
        unsafe { munmap(self.base.sub(PAGE).cast(), self.size + 2 * PAGE) };
    }
}
