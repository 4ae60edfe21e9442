//! Stands for the crate text-size: offsets of 32 bits and half-open ranges of them, with what
//! rowan uses. Written from rowan's use and from document 01, whose rules for a child at a range
//! settle `TextRange::ordering`.

mod range;
mod size;

pub use range::TextRange;
pub use size::TextSize;
