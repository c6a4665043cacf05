//! The exported entry as it is: `include/sml_parse.h` says the same in C. And
//! the same over slices.

use crate::lent::{Call, Room};

unsafe extern "C" {
    /// Reads the tokens of a text and gives document 01's answer; the used
    /// lengths of nodes, findings and final environment are left in `used`.
    ///
    /// # Safety
    ///
    /// Each pointer is to so many bytes as the length after it says, which may
    /// be read, and written too where the pointer is `*mut`; `used` is to three
    /// numbers. What is written overlaps nothing else. The stack that is left
    /// has [`crate::stack::NEED`] bytes.
    pub fn sml_parse_read(
        text: *const u8,
        text_len: usize,
        toks: *const u8,
        toks_len: usize,
        env: *const u8,
        env_len: usize,
        depth: u64,
        mode: u64,
        scratch: *mut u8,
        scratch_len: usize,
        nodes: *mut u8,
        nodes_len: usize,
        finds: *mut u8,
        finds_len: usize,
        last: *mut u8,
        last_len: usize,
        used: *mut u64,
    ) -> usize;
}

/// [`sml_parse_read`] on slices. Document 01's answers end at 10; what no byte
/// holds would be 255.
///
/// # Safety
///
/// The stack that is left has [`crate::stack::NEED`] bytes.
pub unsafe fn enter(call: &Call<'_>, room: Room<'_>, used: &mut [u64; 3]) -> u8 {
    // SAFETY: The slices are what the pointers and lengths say, the ones to be
    // written borrowed by nobody else; the stack is the caller's to look at.
    let answer = unsafe {
        sml_parse_read(
            call.text.as_ptr(),
            call.text.len(),
            call.records.as_ptr(),
            call.records.len(),
            call.environment.as_ptr(),
            call.environment.len(),
            call.depth,
            call.mode,
            room.scratch.as_mut_ptr(),
            room.scratch.len(),
            room.nodes.as_mut_ptr(),
            room.nodes.len(),
            room.findings.as_mut_ptr(),
            room.findings.len(),
            room.environment.as_mut_ptr(),
            room.environment.len(),
            used.as_mut_ptr(),
        )
    };
    u8::try_from(answer).unwrap_or(u8::MAX)
}
