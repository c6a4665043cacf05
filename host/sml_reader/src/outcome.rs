//! What a reading leaves behind, owned.

use crate::kinds::{NodeKind, TokenKind};

/// The nodes, the findings and the final environment of a text that was read.
#[derive(Debug, Clone, PartialEq, Eq)]
pub struct Read {
    pub(crate) nodes: Vec<u8>,
    pub(crate) findings: Vec<u8>,
    pub(crate) environment: Vec<u8>,
}

/// One step of a walk over the tree.
#[derive(Debug, Clone, Copy, PartialEq, Eq)]
pub enum Step {
    /// A node begins.
    Open(NodeKind),
    /// A token and the index of its record.
    Token(TokenKind, u16),
    /// The innermost open node ends, which is of this kind.
    Close(NodeKind),
}

/// Something that the reader reports.
#[derive(Debug, Clone, Copy, PartialEq, Eq)]
pub struct Finding {
    /// 1 to 9: the source's `ErrorKind` in order; 10: a fixity number over 9,
    /// in strict mode.
    pub number: u8,
    /// Of number 6, what was expected: 1 to 12 for the source's `Expected` in
    /// order, or 128 and a token kind. Of number 9, which expression needs
    /// parentheses, 1 to 5. Otherwise 0.
    pub detail: u8,
    /// The index of the next token that isn't trivia, or the count of tokens.
    pub place: u16,
    /// The index of the token that spells the name, if there is one.
    pub name: Option<u16>,
}

/// A name's fixity.
#[derive(Debug, Clone, Copy, PartialEq, Eq)]
pub struct Entry<'a> {
    pub name: &'a [u8],
    pub precedence: u16,
    /// Whether it associates to the right.
    pub right: bool,
}

impl Finding {
    /// The code, 3001 to 3010, as the source's diagnostics have it.
    #[must_use]
    pub fn code(&self) -> u16 {
        3000 + u16::from(self.number)
    }
}

impl Read {
    /// The walk over the tree: `Root` opens first and closes last.
    pub fn nodes(&self) -> impl Iterator<Item = Step> {
        let records = self.nodes.as_chunks().0.iter();
        records.map(|&[sort, kind, low, high]| match sort {
            1 => Step::Open(NodeKind(kind)),
            2 => Step::Token(TokenKind(kind), u16::from_le_bytes([low, high])),
            _ => Step::Close(NodeKind(kind)),
        })
    }

    /// The findings in the order of their reports.
    pub fn findings(&self) -> impl Iterator<Item = Finding> {
        let records = self.findings.as_chunks().0.iter();
        records.map(|&[number, detail, p0, p1, n0, n1, _, _]| {
            let name = u16::from_le_bytes([n0, n1]);
            Finding {
                number,
                detail,
                place: u16::from_le_bytes([p0, p1]),
                name: (name != u16::MAX).then_some(name),
            }
        })
    }

    /// The final environment, sorted by the bytes of the names.
    pub fn environment(&self) -> impl Iterator<Item = Entry<'_>> {
        let mut bytes = &self.environment[..];
        std::iter::from_fn(move || {
            let (&length, rest) = bytes.split_first()?;
            let (name, rest) = rest.split_at_checked(usize::from(length))?;
            let (&[low, high, right], rest) = rest.split_first_chunk()?;
            bytes = rest;
            Some(Entry {
                name,
                precedence: u16::from_le_bytes([low, high]),
                right: right == 1,
            })
        })
    }

    /// The node records, 4 bytes each.
    #[must_use]
    pub fn node_bytes(&self) -> &[u8] {
        &self.nodes
    }

    /// The findings, 8 bytes each.
    #[must_use]
    pub fn finding_bytes(&self) -> &[u8] {
        &self.findings
    }

    /// The final environment, in the form in which the next call takes it.
    #[must_use]
    pub fn environment_bytes(&self) -> &[u8] {
        &self.environment
    }
}
