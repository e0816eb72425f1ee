//! Shared values.

use crate::alloc::{AllocError, AllocFailed, Global};
use std::ops::Deref;

/// A value that several hold.
pub struct Rc<T>(std::rc::Rc<T>);

impl<T> Rc<T> {
    /// A value that one holds.
    pub fn new(_: Global, value: T) -> Result<Rc<T>, AllocFailed<T>> {
        Ok(Rc(std::rc::Rc::new(value)))
    }

    /// The same value, which one more holds.
    pub fn clone(&self) -> Result<Rc<T>, AllocError> {
        Ok(Rc(self.0.clone()))
    }

    /// The value, where nobody else holds it.
    pub fn into_inner(this: Rc<T>) -> Option<T> {
        std::rc::Rc::into_inner(this.0)
    }

    /// How many hold it.
    pub fn strong_count(this: &Rc<T>) -> usize {
        std::rc::Rc::strong_count(&this.0)
    }

    /// Whether two are one value.
    pub fn ptr_eq(this: &Rc<T>, other: &Rc<T>) -> bool {
        std::rc::Rc::ptr_eq(&this.0, &other.0)
    }
}

impl<T> Deref for Rc<T> {
    type Target = T;

    fn deref(&self) -> &T {
        &self.0
    }
}
