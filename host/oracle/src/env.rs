//! The bytes of an environment.

use sml_fixity::{Assoc, Env, Infix};

/// The most entries.
pub const MOST_ENTRIES: usize = 256;

/// One entry, its name still in the lent bytes.
pub struct Entry<'a> {
    pub name: &'a [u8],
    pub infix: Infix,
}

/// Takes the bytes of an environment apart, if they are in the form.
#[must_use]
pub fn entries(mut bytes: &[u8]) -> Option<Vec<Entry<'_>>> {
    let mut ret: Vec<Entry<'_>> = Vec::new();
    while let Some((&length, rest)) = bytes.split_first() {
        if length == 0 {
            return None;
        }
        let (name, rest) = rest.split_at_checked(usize::from(length))?;
        let (&[low, high, assoc], rest) = rest.split_first_chunk()?;
        let prec = u16::from_le_bytes([low, high]);
        let infix = match assoc {
            0 => Infix::left(prec),
            1 => Infix::right(prec),
            _ => return None,
        };
        if ret.last().is_some_and(|last| last.name >= name) || ret.len() == MOST_ENTRIES {
            return None;
        }
        ret.push(Entry { name, infix });
        bytes = rest;
    }
    Some(ret)
}

/// Writes one entry.
pub fn write(bytes: &mut Vec<u8>, name: &[u8], prec: u16, right: bool) {
    bytes.push(name.len() as u8);
    bytes.extend(name);
    bytes.extend(prec.to_le_bytes());
    bytes.push(u8::from(right));
}

/// The bytes of the source's environment.
pub(crate) fn bytes(env: &Env) -> Vec<u8> {
    let mut ret = Vec::new();
    for (name, infix) in env.entries() {
        write(
            &mut ret,
            name.as_bytes(),
            infix.prec,
            infix.assoc == Assoc::Right,
        );
    }
    ret
}
