//! Vectors.

use crate::alloc::{AllocError, AllocFailed, Global};
use std::fmt::{Debug, Formatter};
use std::ops::{Deref, DerefMut, Index, IndexMut};

/// A vector. What it doesn't have of its own is a slice's.
pub struct Vec<T>(std::vec::Vec<T>);

impl<T> Vec<T> {
    /// The empty vector.
    pub fn new(_: Global) -> Vec<T> {
        Vec(std::vec::Vec::new())
    }

    /// The empty vector, with room for so many items.
    pub fn with_capacity(_: Global, room: usize) -> Result<Vec<T>, AllocError> {
        Ok(Vec(std::vec::Vec::with_capacity(room)))
    }

    /// Puts an item at the end.
    pub fn push(&mut self, item: T) -> Result<(), AllocFailed<T>> {
        self.0.push(item);
        Ok(())
    }

    /// Takes the last item.
    pub fn pop(&mut self) -> Option<T> {
        self.0.pop()
    }

    /// Puts an item before the one of a number.
    pub fn insert(&mut self, number: usize, item: T) -> Result<(), AllocFailed<T>> {
        self.0.insert(number, item);
        Ok(())
    }

    /// Takes the item of a number, and puts the last one in its place.
    pub fn swap_remove(&mut self, number: usize) -> T {
        self.0.swap_remove(number)
    }

    /// Lets go of the items behind the first ones, so many.
    pub fn truncate(&mut self, count: usize) {
        self.0.truncate(count)
    }

    /// Lets go of all items.
    pub fn clear(&mut self) {
        self.0.clear()
    }

    /// The items.
    pub fn as_slice(&self) -> &[T] {
        &self.0
    }

    /// The items, to be changed.
    pub fn as_mut_slice(&mut self) -> &mut [T] {
        &mut self.0
    }
}

impl<T: Clone> Vec<T> {
    /// An item so many times: Rattle's `vec![in alloc; item; count]`.
    pub fn filled(_: Global, item: T, count: usize) -> Result<Vec<T>, AllocError> {
        Ok(Vec(std::vec![item; count]))
    }

    /// A copy of a slice.
    pub fn from_slice(_: Global, items: &[T]) -> Result<Vec<T>, AllocError> {
        Ok(Vec(items.to_vec()))
    }

    /// Makes it so many items long; new ones are copies of an item.
    pub fn resize(&mut self, count: usize, item: T) -> Result<(), AllocError> {
        self.0.resize(count, item);
        Ok(())
    }

    /// Puts copies of a slice's items at the end.
    pub fn extend_from_slice(&mut self, items: &[T]) -> Result<(), AllocError> {
        self.0.extend_from_slice(items);
        Ok(())
    }

    /// A copy.
    pub fn clone(&self) -> Result<Vec<T>, AllocError> {
        Ok(Vec(self.0.clone()))
    }
}

/// Rattle's `to_vec(alloc)` of slices, by another name, since Rust's takes no allocator.
pub trait ToVecWith<T> {
    /// A copy of the items.
    fn to_vec_with(&self, alloc: Global) -> Result<Vec<T>, AllocError>;
}

impl<T: Clone> ToVecWith<T> for [T] {
    fn to_vec_with(&self, alloc: Global) -> Result<Vec<T>, AllocError> {
        Vec::from_slice(alloc, self)
    }
}

impl<T> Deref for Vec<T> {
    type Target = [T];

    fn deref(&self) -> &[T] {
        &self.0
    }
}

impl<T> DerefMut for Vec<T> {
    fn deref_mut(&mut self) -> &mut [T] {
        &mut self.0
    }
}

impl<T> Index<usize> for Vec<T> {
    type Output = T;

    fn index(&self, number: usize) -> &T {
        &self.0[number]
    }
}

impl<T> IndexMut<usize> for Vec<T> {
    fn index_mut(&mut self, number: usize) -> &mut T {
        &mut self.0[number]
    }
}

impl<T> IntoIterator for Vec<T> {
    type Item = T;
    type IntoIter = std::vec::IntoIter<T>;

    fn into_iter(self) -> std::vec::IntoIter<T> {
        self.0.into_iter()
    }
}

impl<'a, T> IntoIterator for &'a Vec<T> {
    type Item = &'a T;
    type IntoIter = std::slice::Iter<'a, T>;

    fn into_iter(self) -> std::slice::Iter<'a, T> {
        self.0.iter()
    }
}

impl<'a, T> IntoIterator for &'a mut Vec<T> {
    type Item = &'a mut T;
    type IntoIter = std::slice::IterMut<'a, T>;

    fn into_iter(self) -> std::slice::IterMut<'a, T> {
        self.0.iter_mut()
    }
}

impl<T: Debug> Debug for Vec<T> {
    fn fmt(&self, out: &mut Formatter) -> std::fmt::Result {
        self.0.fmt(out)
    }
}

impl<T: PartialEq> PartialEq for Vec<T> {
    fn eq(&self, other: &Vec<T>) -> bool {
        self.0 == other.0
    }
}
