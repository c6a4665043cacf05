//! Stands in for the original's `token`. Made from document 01's rules and from
//! the uses in the given source, not from the original.

/// A token: its kind, and its text as a part of the lent text.
#[derive(Debug, Clone, Copy)]
pub struct Token<'a, K> {
    pub kind: K,
    pub text: &'a str,
}

/// What the parser must know of a kind without naming the kinds.
pub trait Kind: Copy + Eq {
    /// Whether every look and count ahead skips it.
    fn is_trivia(self) -> bool;

    /// Whether a fixity number may stand right after it.
    fn is_before_fixity(self) -> bool;

    /// Whether a fixity number is of this kind.
    fn is_int(self) -> bool;
}
