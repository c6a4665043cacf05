//! What a parse is poured into. The tree is kept flat, in the order in which
//! document 01 writes its records.

use std::fmt;
use std::marker::PhantomData;
use text_size_util::TextRange;

/// One step of a walk over the tree.
#[derive(Debug, Clone, Copy, PartialEq, Eq)]
pub enum Element<K> {
    Open(K),
    /// A token and its index.
    Token(K, usize),
    Close(K),
}

/// The most that a reading held at one time.
#[derive(Debug, Clone, Copy, Default)]
pub struct Peak {
    pub depth: usize,
    pub records: usize,
    pub findings: usize,
}

/// A finding of strict mode. The source's kinds of errors know nothing of it,
/// so it comes beside them, with its rank among all the findings.
#[derive(Debug, Clone, Copy)]
pub struct Strict {
    pub rank: usize,
    pub place: usize,
}

/// The tree, and what else the oracle wants to know of the parse.
#[derive(Debug)]
pub struct Node<K> {
    pub elements: Vec<Element<K>>,
    pub strict: Vec<Strict>,
    pub peak: Peak,
}

/// A finding of the source.
pub struct Error<K, E> {
    pub range: TextRange,
    pub inner: E,
    kind: PhantomData<K>,
}

impl<K, E> Error<K, E> {
    pub(crate) fn new(place: usize, inner: E) -> Self {
        Self {
            range: TextRange { place },
            inner,
            kind: PhantomData,
        }
    }
}

/// Shows the source's own kind of error alone, for the oracle to read.
impl<K, E: fmt::Debug> fmt::Debug for Error<K, E> {
    fn fmt(&self, f: &mut fmt::Formatter<'_>) -> fmt::Result {
        self.inner.fmt(f)
    }
}

/// Receives a finished parse.
pub struct RowanSink<K, E> {
    pub(crate) node: Node<K>,
    pub(crate) errors: Vec<Error<K, E>>,
}

impl<K, E> Default for RowanSink<K, E> {
    fn default() -> Self {
        Self {
            node: Node {
                elements: Vec::new(),
                strict: Vec::new(),
                peak: Peak::default(),
            },
            errors: Vec::new(),
        }
    }
}

impl<K, E> RowanSink<K, E> {
    #[must_use]
    pub fn finish(self) -> (Node<K>, Vec<Error<K, E>>) {
        (self.node, self.errors)
    }
}
