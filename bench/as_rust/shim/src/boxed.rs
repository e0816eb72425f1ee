//! Boxes.

use crate::alloc::{AllocFailed, Global};
use std::ops::{Deref, DerefMut};

/// A value in memory of its own.
pub struct Box<T>(std::boxed::Box<T>);

impl<T> Box<T> {
    /// A box of a value.
    pub fn new(_: Global, value: T) -> Result<Box<T>, AllocFailed<T>> {
        Ok(Box(std::boxed::Box::new(value)))
    }

    /// The value of a box.
    pub fn into_inner(this: Box<T>) -> T {
        *this.0
    }
}

impl<T> Deref for Box<T> {
    type Target = T;

    fn deref(&self) -> &T {
        &self.0
    }
}

impl<T> DerefMut for Box<T> {
    fn deref_mut(&mut self) -> &mut T {
        &mut self.0
    }
}
