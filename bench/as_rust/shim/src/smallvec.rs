//! Vectors whose first items lie in the value itself, in place of the library smallvec.

use crate::alloc::{AllocFailed, Global};
use std::mem::MaybeUninit;

/// A vector. Its first N items lie in `here`, which is filled up to the length, and those behind them in `more`.
pub struct SmallVec<T, const N: usize> {
    len: usize,
    here: [MaybeUninit<T>; N],
    more: std::vec::Vec<T>,
}

impl<T, const N: usize> SmallVec<T, N> {
    /// The empty vector.
    pub fn new(_: Global) -> SmallVec<T, N> {
        SmallVec {
            len: 0,
            here: [const { MaybeUninit::uninit() }; N],
            more: std::vec::Vec::new(),
        }
    }

    /// Puts an item at the end.
    pub fn push(&mut self, item: T) -> Result<(), AllocFailed<T>> {
        if self.len < N {
            self.here[self.len].write(item);
        } else {
            self.more.push(item);
        }
        self.len += 1;
        Ok(())
    }

    /// Takes the last item.
    pub fn pop(&mut self) -> Option<T> {
        if self.len == 0 {
            return None;
        }
        self.len -= 1;
        if self.len < N {
            // it was written, and isn't below the length any more
            Some(unsafe { self.here[self.len].assume_init_read() })
        } else {
            self.more.pop()
        }
    }

    /// The number of its items.
    pub fn len(&self) -> usize {
        self.len
    }

    /// Whether it is empty.
    pub fn is_empty(&self) -> bool {
        self.len == 0
    }
}

impl<T, const N: usize> Drop for SmallVec<T, N> {
    fn drop(&mut self) {
        while self.pop().is_some() {}
    }
}
