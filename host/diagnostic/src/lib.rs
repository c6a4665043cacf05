//! Stands in for the original's `diagnostic`. Made from document 01's rules and
//! from the uses in the given source, not from the original.

/// The code of a finding, such as 3001.
#[derive(Debug, Clone, Copy, PartialEq, Eq)]
pub struct Code(pub u16);

impl Code {
    #[must_use]
    pub fn n(number: u16) -> Self {
        Self(number)
    }
}

/// How grave a finding is. Document 01 makes no use of it, the source does.
#[derive(Debug, Clone, Copy, PartialEq, Eq)]
pub enum Severity {
    Warning,
    Error,
}
