//! One program text, `program.rs`, compiled twice: over rowan and over notes_tree. What the two differ in stands in a module of
//! the same names for each, `side`: a store or none, errors or panics.

// What converts, copies, drops or answers nothing on one side does something on the other.
#![allow(clippy::clone_on_copy, clippy::drop_non_drop, clippy::let_unit_value, clippy::useless_conversion)]
#![allow(clippy::duplicate_mod)]

pub mod over_notes_tree;
pub mod over_rowan;
mod random;
