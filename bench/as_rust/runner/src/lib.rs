//! What the measuring programs share: their flags, the processor's time and the peak of memory, stages, and the lines that they print.

pub mod flags;
pub mod measuring;
pub mod resources;
pub mod stages;
