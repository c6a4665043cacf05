//! The buffers of a call that sizes them itself.

use crate::lent::{Call, Room, Used};
use crate::outcome::Read;
use crate::refusal::Refusal;
use crate::stack::Stack;

/// The lengths that are tried, in bytes. The nodes need no length of their own:
/// each of their 4 bytes comes of a scratch record of 8.
#[derive(Debug, Clone, Copy)]
struct Sizes {
    scratch: usize,
    findings: usize,
    environment: usize,
}

/// No reading of 13,107 tokens comes near as much; a limit all the same, so
/// that growing ends.
const MOST: usize = 1 << 30;

/// Scratch records for each token: more than most texts take.
const RECORDS: usize = 16;

impl Sizes {
    fn first(call: &Call<'_>) -> Self {
        let tokens = call.records.len() / 5;
        Self {
            scratch: 8 * (64 + RECORDS * tokens),
            findings: 8 * (16 + tokens / 8),
            environment: 256 + call.environment.len(),
        }
    }

    /// The length that a refusal found too small.
    fn of(&mut self, refusal: Refusal) -> Option<&mut usize> {
        match refusal {
            Refusal::Scratch => Some(&mut self.scratch),
            Refusal::Findings => Some(&mut self.findings),
            Refusal::Final => Some(&mut self.environment),
            _ => None,
        }
    }
}

/// One try with buffers of these sizes.
fn attempt(stack: &Stack, call: &Call<'_>, sizes: Sizes) -> Result<Read, Refusal> {
    let mut scratch = vec![0; sizes.scratch];
    let mut nodes = vec![0; sizes.scratch / 2];
    let mut findings = vec![0; sizes.findings];
    let mut environment = vec![0; sizes.environment];
    let room = Room {
        scratch: &mut scratch,
        nodes: &mut nodes,
        findings: &mut findings,
        environment: &mut environment,
    };
    let used: Used = stack.read_into(call, room)?;
    nodes.truncate(used.nodes);
    findings.truncate(used.findings);
    environment.truncate(used.environment);
    Ok(Read {
        nodes,
        findings,
        environment,
    })
}

impl Stack {
    /// Reads with buffers that grow until they suffice.
    ///
    /// # Errors
    ///
    /// Document 01's answers, but for those that say a buffer is too small.
    ///
    /// # Panics
    ///
    /// As [`Stack::read_into`].
    pub fn read(&self, call: &Call<'_>) -> Result<Read, Refusal> {
        let mut sizes = Sizes::first(call);
        loop {
            let refusal = match attempt(self, call, sizes) {
                Ok(read) => return Ok(read),
                Err(refusal) => refusal,
            };
            match sizes.of(refusal) {
                Some(size) if *size < MOST => *size *= 2,
                _ => return Err(refusal),
            }
        }
    }
}
