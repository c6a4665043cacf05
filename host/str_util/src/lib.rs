//! Stands in for the original's `str_util`. Made from document 01's rules and
//! from the uses in the given source, not from the original.

use std::borrow::Borrow;
use std::cmp::Ordering;
use std::fmt;

/// A name. It also remembers where the text that it was made from stands: the
/// source makes names from parts of the lent text, so that the place tells the
/// token whose index a finding carries.
#[derive(Clone)]
pub struct Name {
    text: String,
    address: usize,
}

impl Name {
    #[must_use]
    pub fn new(text: &str) -> Self {
        Self {
            text: text.to_owned(),
            address: text.as_ptr().addr(),
        }
    }
}

/// Gives the address alone. The kind of an error is private to the source, and
/// its `Debug` text is how the name gets out.
impl fmt::Debug for Name {
    fn fmt(&self, f: &mut fmt::Formatter<'_>) -> fmt::Result {
        self.address.fmt(f)
    }
}

impl fmt::Display for Name {
    fn fmt(&self, f: &mut fmt::Formatter<'_>) -> fmt::Result {
        f.write_str(&self.text)
    }
}

// Names are the same when their texts are: a lookup is by the token's bytes.

impl Borrow<str> for Name {
    fn borrow(&self) -> &str {
        &self.text
    }
}

impl Ord for Name {
    fn cmp(&self, other: &Self) -> Ordering {
        self.text.cmp(&other.text)
    }
}

impl PartialOrd for Name {
    fn partial_cmp(&self, other: &Self) -> Option<Ordering> {
        Some(self.cmp(other))
    }
}

impl PartialEq for Name {
    fn eq(&self, other: &Self) -> bool {
        self.text == other.text
    }
}

impl Eq for Name {}
