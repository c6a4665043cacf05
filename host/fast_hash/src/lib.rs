//! Stands in for the original's `fast_hash`. Made from document 01's rules and
//! from the uses in the given source, not from the original.
//!
//! The one map of the source is the fixity environment, so the limits on it are
//! kept here: each insert and each remove is a fixity change.

use std::borrow::Borrow;
use std::collections::BTreeMap;

/// The most entries of an environment.
const MOST_ENTRIES: usize = 256;

/// The most bytes of a name in an environment.
const MOST_NAME: usize = 255;

/// A map by names. It is sorted, as the bytes of an environment are.
#[derive(Debug, Clone)]
pub struct FxHashMap<K, V>(BTreeMap<K, V>);

/// Returns an empty map. The sorted one has no use for a capacity.
#[must_use]
pub fn map_with_capacity<K, V>(_: usize) -> FxHashMap<K, V> {
    FxHashMap(BTreeMap::new())
}

impl<K, V> FxHashMap<K, V>
where
    K: Borrow<str> + Ord,
{
    /// Refuses a change too many, a name too long and an entry too many.
    pub fn insert(&mut self, name: K, value: V) -> Option<V> {
        limits::count_change();
        if name.borrow().len() > MOST_NAME {
            limits::refuse(8);
        }
        if self.0.len() == MOST_ENTRIES && !self.0.contains_key(name.borrow()) {
            limits::refuse(8);
        }
        self.0.insert(name, value)
    }

    /// Refuses a change too many. A name too long is in no environment.
    pub fn remove(&mut self, name: &str) -> Option<V> {
        limits::count_change();
        self.0.remove(name)
    }

    #[must_use]
    pub fn get(&self, name: &str) -> Option<&V> {
        self.0.get(name)
    }

    #[must_use]
    pub fn contains_key(&self, name: &str) -> bool {
        self.0.contains_key(name)
    }

    /// The entries, sorted by the bytes of their names.
    pub fn entries(&self) -> impl Iterator<Item = (&str, &V)> {
        self.0.iter().map(|(name, value)| (name.borrow(), value))
    }
}
