//! Sets of strings in the order in which they came, in place of the library indexmap.

use crate::alloc::{AllocError, Global};
use crate::collections::SameHashes;
use crate::string::String;
use std::collections::HashMap;

/// A set whose items have numbers from 0, in the order in which they were put in. Its items are strings.
pub struct IndexSet<T> {
    items: std::vec::Vec<T>,
    numbers: HashMap<std::string::String, usize, SameHashes>,
}

impl IndexSet<String> {
    /// The empty set.
    pub fn new(_: Global) -> IndexSet<String> {
        IndexSet {
            items: std::vec::Vec::new(),
            numbers: HashMap::default(),
        }
    }

    /// The number of its items.
    pub fn len(&self) -> usize {
        self.items.len()
    }

    /// Whether it is empty.
    pub fn is_empty(&self) -> bool {
        self.items.is_empty()
    }

    /// Its items.
    pub fn as_slice(&self) -> &[String] {
        &self.items
    }

    /// The number of an item.
    pub fn get_index_of(&self, item: &str) -> Option<usize> {
        self.numbers.get(item).copied()
    }

    /// Puts an item in behind the others; whether it wasn't there.
    pub fn insert(&mut self, item: String) -> Result<bool, AllocError> {
        if self.numbers.contains_key(item.as_str()) {
            return Ok(false);
        }
        let text = item.as_str().to_string();
        self.numbers.insert(text, self.items.len());
        self.items.push(item);
        Ok(true)
    }
}
