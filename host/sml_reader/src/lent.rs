//! A call whose buffers the caller lends.

use crate::raw;
use crate::refusal::Refusal;
use crate::stack::Stack;

/// What is lent to read, and the settings. They are wider than their ranges, so
/// that no number is cut into a good one on its way.
#[derive(Debug, Clone, Copy)]
pub struct Call<'a> {
    /// At most 65,535 bytes, in any encoding.
    pub text: &'a [u8],
    /// Five bytes for each token: kind, start (2), length (2); at most 13,107.
    pub records: &'a [u8],
    /// The starting environment, [`crate::STANDARD`] or another.
    pub environment: &'a [u8],
    /// How many marks may be open at one time, 1 to 1,000.
    pub depth: u64,
    /// 0 or 1: plain; 2: strict.
    pub mode: u64,
}

/// What is lent to write. What it holds before a call is of no account; every
/// byte afterwards is said by document 01.
#[derive(Debug)]
pub struct Room<'a> {
    /// 8 bytes for each record of the reading; zeroes after every call.
    pub scratch: &'a mut [u8],
    /// 4 bytes for each opening, token and closing.
    pub nodes: &'a mut [u8],
    /// 8 bytes for each finding, those taken back later too.
    pub findings: &'a mut [u8],
    /// The final environment.
    pub environment: &'a mut [u8],
}

/// The used lengths in bytes. Behind them there are zeroes.
#[derive(Debug, Clone, Copy, PartialEq, Eq)]
pub struct Used {
    pub nodes: usize,
    pub findings: usize,
    pub environment: usize,
}

impl Stack {
    /// Reads with lent buffers, and allocates nothing.
    ///
    /// # Errors
    ///
    /// Document 01's answers but 0; then all that was lent to write is zero.
    ///
    /// # Panics
    ///
    /// If the work before this call has used up the stack.
    pub fn read_into(&self, call: &Call<'_>, room: Room<'_>) -> Result<Used, Refusal> {
        assert!(self.is_left(), "too little of the stack is left for a call");
        let mut used = [0; 3];
        // SAFETY: The stack was looked at.
        let answer = unsafe { raw::enter(call, room, &mut used) };
        let [nodes, findings, environment] = used.map(|it| it as usize);
        if answer != 0 {
            return Err(Refusal::of_number(answer).expect("the answers are 0 to 10"));
        }
        Ok(Used {
            nodes,
            findings,
            environment,
        })
    }
}
