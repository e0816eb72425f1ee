//! Strings.

use crate::alloc::{AllocError, Global};
use std::borrow::Borrow;
use std::ops::Deref;

/// A text.
#[derive(PartialEq, Eq, Hash, Debug)]
pub struct String(std::string::String);

impl String {
    /// A copy of a text.
    pub fn from_str(_: Global, text: &str) -> Result<String, AllocError> {
        Ok(String(text.to_string()))
    }

    /// The text.
    pub fn as_str(&self) -> &str {
        &self.0
    }
}

impl Borrow<str> for String {
    fn borrow(&self) -> &str {
        &self.0
    }
}

impl Deref for String {
    type Target = str;

    fn deref(&self) -> &str {
        &self.0
    }
}
