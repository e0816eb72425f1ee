//! Sets by hashes.

use crate::alloc::{AllocError, Global};
use std::hash::{BuildHasherDefault, DefaultHasher, Hash};

/// std's hashes with keys that are the same in each run, so that two runs count the same instructions.
pub(crate) type SameHashes = BuildHasherDefault<DefaultHasher>;

/// A set.
pub struct HashSet<T>(std::collections::HashSet<T, SameHashes>);

impl<T: Hash + Eq> HashSet<T> {
    /// The empty set.
    pub fn new(_: Global) -> HashSet<T> {
        HashSet(std::collections::HashSet::default())
    }

    /// Puts an item in; whether it wasn't there.
    pub fn insert(&mut self, item: T) -> Result<bool, AllocError> {
        Ok(self.0.insert(item))
    }

    /// Whether an item is there.
    pub fn contains(&self, item: &T) -> bool {
        self.0.contains(item)
    }
}
