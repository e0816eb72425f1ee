//! The allocator, and want of memory.

/// The allocator that calls take. It has nothing in it: Rust's global allocator is asked.
#[derive(Clone, Copy, Debug)]
pub struct Global;

/// There is no memory.
#[derive(Clone, Copy, Debug, PartialEq, Eq)]
pub struct AllocError;

/// There is no memory for a value, which is given back.
#[derive(Debug)]
pub struct AllocFailed<T>(pub T);

impl<T> From<AllocFailed<T>> for AllocError {
    fn from(_: AllocFailed<T>) -> AllocError {
        AllocError
    }
}
