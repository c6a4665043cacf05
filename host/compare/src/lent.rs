//! What a case lends.

use oracle::Case;
use sml_reader::{Call, Room};

/// What a case lends to read, and its settings.
#[must_use]
pub fn call(case: &Case) -> Call<'_> {
    Call {
        text: &case.text,
        records: &case.records,
        environment: &case.env,
        depth: case.depth,
        mode: case.mode,
    }
}

/// Buffers as large as a case says, lent again and again.
pub struct Buffers {
    scratch: Vec<u8>,
    nodes: Vec<u8>,
    findings: Vec<u8>,
    environment: Vec<u8>,
}

impl Buffers {
    #[must_use]
    pub fn new(case: &Case) -> Self {
        Self {
            scratch: vec![0; case.scratch],
            nodes: vec![0; case.nodes],
            findings: vec![0; case.finds],
            environment: vec![0; case.fin],
        }
    }

    pub fn room(&mut self) -> Room<'_> {
        Room {
            scratch: &mut self.scratch,
            nodes: &mut self.nodes,
            findings: &mut self.findings,
            environment: &mut self.environment,
        }
    }
}
