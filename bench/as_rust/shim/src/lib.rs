//! What stands for std, and for libraries of the toolchain, where the checker's crates are built as Rust. A call has the name and the shape of
//! Rattle's: it takes the allocator, and its answer has a case for want of memory. Memory is Rust's, so that case never comes.
//!
//! A method that a crate calls anew of one of these types is added here.

pub mod alloc;
pub mod boxed;
pub mod collections;
pub mod indexmap;
pub mod itoa;
pub mod memchr;
pub mod rc;
pub mod smallvec;
pub mod string;
pub mod vec;

/// What is in scope in each file.
pub mod prelude {
    pub use crate::alloc::AllocFailed;
    pub use crate::boxed::Box;
    pub use crate::string::String;
    pub use crate::vec::{ToVecWith, Vec};
}
