//! rowan 0.17.0 and the library on the same trees.

pub mod case;
pub mod ffi;
pub mod measure;
pub mod report;
pub mod rows;
pub mod store;
pub mod trees;
