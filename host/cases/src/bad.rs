//! Cases for the checks before the reading, with each way of failing and with
//! neighbours that pass.

use crate::rng::Rng;
use crate::{full, readable};
use oracle::Case;

/// The bytes of a token record.
const RECORD: usize = 5;

/// A setting or a length out of range, or at the end of its range.
pub fn settings(tokens: usize, rng: &mut Rng) -> Case {
    let mut ret = readable::any(tokens, rng);
    spoil_settings(&mut ret, rng);
    ret
}

/// Numbers that a narrower type would take for good ones are among these.
fn spoil_settings(case: &mut Case, rng: &mut Rng) {
    match rng.below(3) {
        0 => {
            let depths = [0, 1, 999, 1000, 1001, 65_537, (1 << 32) + 9, u64::MAX];
            case.depth = rng.pick(&depths);
        }
        1 => case.mode = rng.pick(&[2, 3, 3, 4, 255, 256, 65_537, 1 << 32, u64::MAX]),
        _ => {
            let over = 1 + rng.below(RECORD - 1);
            let last = case.records.len().saturating_sub(over);
            if rng.one_in(2) {
                case.records.extend(&[1, 0, 0, 1][..over]);
            } else {
                case.records.truncate(last);
            }
        }
    }
}

/// A record not in the form, or one that just is.
pub fn records(tokens: usize, rng: &mut Rng) -> Case {
    let mut ret = readable::any(tokens.max(1), rng);
    spoil_records(&mut ret, rng);
    ret
}

fn spoil_records(case: &mut Case, rng: &mut Rng) {
    only_ascii(&mut case.text);
    if case.records.is_empty() {
        // A record of a text that isn't there, or that just is.
        case.text.push(b'x');
        case.records = vec![61, rng.below(2) as u8, 0, 1, 0];
        return;
    }
    let at = RECORD * rng.below(case.records.len() / RECORD);
    let record = &mut case.records[at..at + RECORD];
    match rng.below(8) {
        0 => record[0] = rng.pick(&[68, 69, 70, 71, 127, 255]),
        1 => record[3..].fill(0),
        2 => shift(&mut record[1..3], u16::MAX),
        3 => shift(&mut record[1..3], 1),
        4 => shift(&mut record[3..5], 1),
        5 => record[1..].fill(255),
        // As long as the text lasts, and one more byte.
        6 => {
            let start = u16::from_le_bytes([record[1], record[2]]);
            let length = case.text.len() as u16 - start + rng.below(2) as u16;
            record[3..].copy_from_slice(&length.to_le_bytes());
        }
        _ => case.text.truncate(case.text.len() - 1),
    }
}

/// Adds to a number of two bytes.
fn shift(bytes: &mut [u8], by: u16) {
    let number = u16::from_le_bytes([bytes[0], bytes[1]]);
    bytes.copy_from_slice(&number.wrapping_add(by).to_le_bytes());
}

/// A changed record may cut a letter in two and still be in the form; the
/// source cannot run on that, so the text loses its letters of many bytes.
fn only_ascii(text: &mut [u8]) {
    for byte in text {
        if !byte.is_ascii() {
            *byte = b'e';
        }
    }
}

/// A starting environment not in the form, or one that just is.
pub fn environment(tokens: usize, rng: &mut Rng) -> Case {
    let mut ret = readable::any(tokens, rng);
    ret.env = spoilt_env(rng);
    ret
}

fn spoilt_env(rng: &mut Rng) -> Vec<u8> {
    let mut names: Vec<String> = ["*", "+", "f", "fo", "foo", "g", "x"]
        .map(String::from)
        .into();
    let mut assoc = 1;
    let place = rng.below(names.len());
    match rng.below(9) {
        0 => names[place].clear(),
        1 => names.swap(place, 0),
        2 => names.insert(place, names[place].clone()),
        // A prefix goes before what it begins.
        3 => names.insert(place + 1, format!("{}a", names[place])),
        4 => names.insert(place, format!("{}a", names[place])),
        5 => assoc = rng.pick(&[0, 2, 3, 128, 255]),
        6 => names.push("y".repeat(rng.pick(&[254, 255]))),
        7 => names = full::names(rng.pick(&[255, 256, 257, 258])),
        _ => {}
    }
    let mut ret = Vec::new();
    for name in &names {
        oracle::env::write(&mut ret, name.as_bytes(), 5, rng.one_in(2));
    }
    if let Some(last) = ret.last_mut() {
        *last = assoc;
    }
    if rng.one_in(4) {
        ret.truncate(ret.len() - 1 - rng.below(6));
    } else if rng.one_in(8) {
        ret.push(rng.pick(&[0, 1, 255]));
    }
    ret
}

/// More than one check fails, mostly: the first of them gives the answer.
pub fn several(tokens: usize, rng: &mut Rng) -> Case {
    let mut ret = readable::any(tokens, rng);
    if rng.one_in(2) {
        ret.env = spoilt_env(rng);
    }
    spoil_records(&mut ret, rng);
    if rng.one_in(3) {
        spoil_settings(&mut ret, rng);
    }
    ret
}
