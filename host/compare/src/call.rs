//! Calls of the archive that look at every byte afterwards.

use crate::guard::{Arena, Side};
use cases::rng::Rng;
use oracle::{Case, Outcome};
use sml_reader::{Call, Room, raw};

/// The largest buffer of a case.
const MOST: usize = 1 << 20;

/// The pages of a call. It is made on a thread with a large stack.
pub struct Caller {
    text: Arena,
    records: Arena,
    env: Arena,
    scratch: Arena,
    nodes: Arena,
    finds: Arena,
    last: Arena,
    used: Arena,
}

impl Default for Caller {
    fn default() -> Self {
        let arena = || Arena::new(MOST);
        Self {
            text: arena(),
            records: arena(),
            env: arena(),
            scratch: arena(),
            nodes: arena(),
            finds: arena(),
            last: arena(),
            used: arena(),
        }
    }
}

/// Fills with bytes that are not 0, so that a byte left as it was is no zero.
fn spoil(bytes: &mut [u8], rng: &mut Rng) {
    let mut pattern = [0; 61];
    pattern.fill_with(|| 1 + rng.below(255) as u8);
    for chunk in bytes.chunks_mut(pattern.len()) {
        chunk.copy_from_slice(&pattern[..chunk.len()]);
    }
}

/// The used part of a buffer, if there are zeroes behind it.
fn used_part(name: &str, bytes: &[u8], used: u64) -> Result<Vec<u8>, String> {
    let split = usize::try_from(used).ok();
    let parts = split.and_then(|it| bytes.split_at_checked(it));
    let (used, rest) = parts.ok_or_else(|| format!("{name}: {used} of {} used", bytes.len()))?;
    match rest.iter().position(|&it| it != 0) {
        Some(place) => Err(format!("{name}: no zero at {}", used.len() + place)),
        None => Ok(used.to_vec()),
    }
}

impl Caller {
    /// Calls the archive on a case, all buffers on the same side of a page that
    /// nobody may touch.
    ///
    /// # Errors
    ///
    /// What document 01 says of every call does not hold.
    pub fn call(&mut self, case: &Case, side: Side, rng: &mut Rng) -> Result<Outcome, String> {
        self.place(case, side, rng);
        let answer = self.enter(case);
        self.look(answer)
    }

    fn place(&mut self, case: &Case, side: Side, rng: &mut Rng) {
        self.text.place_copy(&case.text, side);
        self.records.place_copy(&case.records, side);
        self.env.place_copy(&case.env, side);
        spoil(self.scratch.place(case.scratch, side), rng);
        spoil(self.nodes.place(case.nodes, side), rng);
        spoil(self.finds.place(case.finds, side), rng);
        spoil(self.last.place(case.fin, side), rng);
        spoil(self.used.place(24, side), rng);
    }

    fn enter(&mut self, case: &Case) -> u8 {
        let call = Call {
            text: self.text.bytes(),
            records: self.records.bytes(),
            environment: self.env.bytes(),
            depth: case.depth,
            mode: case.mode,
        };
        let room = Room {
            scratch: self.scratch.bytes(),
            nodes: self.nodes.bytes(),
            findings: self.finds.bytes(),
            environment: self.last.bytes(),
        };
        // SAFETY: 24 bytes at an end of a page are three numbers, aligned; the
        // stack is large.
        unsafe { raw::enter(&call, room, &mut *self.used.pointer().cast()) }
    }

    fn arenas(&mut self) -> [&mut Arena; 8] {
        [
            &mut self.text,
            &mut self.records,
            &mut self.env,
            &mut self.scratch,
            &mut self.nodes,
            &mut self.finds,
            &mut self.last,
            &mut self.used,
        ]
    }

    fn look(&mut self, answer: u8) -> Result<Outcome, String> {
        if !self.arenas().into_iter().all(Arena::is_whole) {
            return Err("a byte beside a buffer was written".to_owned());
        }
        let mut used = [0; 3];
        for (number, bytes) in used.iter_mut().zip(self.used.bytes().as_chunks().0) {
            *number = u64::from_le_bytes(*bytes);
        }
        if answer > 10 || (answer != 0 && used != [0; 3]) {
            return Err(format!("answer {answer} with the used lengths {used:?}"));
        }
        used_part("scratch", self.scratch.bytes(), 0)?;
        Ok(Outcome {
            answer,
            nodes: used_part("nodes", self.nodes.bytes(), used[0])?,
            finds: used_part("findings", self.finds.bytes(), used[1])?,
            env: used_part("environment", self.last.bytes(), used[2])?,
        })
    }
}
