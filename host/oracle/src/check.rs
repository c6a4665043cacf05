//! The checks before the reading, answers 1 to 3.

use crate::{Case, env};

/// The largest depth.
pub const MOST_DEPTH: u64 = 1000;

/// The largest mode.
pub const MOST_MODE: u64 = 2;

/// The most bytes of a text.
pub const MOST_TEXT: usize = 65_535;

/// The most token records.
pub const MOST_RECORDS: usize = 13_107;

const RECORD: usize = 5;
const MOST_KIND: u8 = 69;

/// A token record that passed.
pub struct Record {
    pub kind: u8,
    pub start: usize,
    pub end: usize,
}

/// A case that passed the checks, taken apart.
pub struct Checked<'a> {
    pub text: &'a [u8],
    pub records: Vec<Record>,
    pub env: Vec<env::Entry<'a>>,
}

/// Makes the checks in their order. The error is the answer.
pub fn check(case: &Case) -> Result<Checked<'_>, u8> {
    let settings = (1..=MOST_DEPTH).contains(&case.depth) && case.mode <= MOST_MODE;
    let lengths = case.text.len() <= MOST_TEXT
        && case.records.len() <= MOST_RECORDS * RECORD
        && case.records.len().is_multiple_of(RECORD);
    if !settings || !lengths {
        return Err(1);
    }
    Ok(Checked {
        text: &case.text,
        records: records(case).ok_or(2)?,
        env: env::entries(&case.env).ok_or(3)?,
    })
}

fn records(case: &Case) -> Option<Vec<Record>> {
    let mut ret = Vec::new();
    let mut last_end = 0;
    for bytes in case.records.chunks_exact(RECORD) {
        let start = usize::from(u16::from_le_bytes([bytes[1], bytes[2]]));
        let length = usize::from(u16::from_le_bytes([bytes[3], bytes[4]]));
        let end = start + length;
        if bytes[0] > MOST_KIND || length == 0 || start < last_end || end > case.text.len() {
            return None;
        }
        last_end = end;
        ret.push(Record {
            kind: bytes[0],
            start,
            end,
        });
    }
    Some(ret)
}
