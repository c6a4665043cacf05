//! Stands in for the original's `text_size_util`. Made from document 01's rules
//! and from the uses in the given source, not from the original.

/// Where a finding is. The original has a range of the text here; document 01
/// has the index of a token in its stead.
#[derive(Debug, Clone, Copy)]
pub struct TextRange {
    /// The index of the next token that isn't trivia, or the token count.
    pub place: usize,
}
