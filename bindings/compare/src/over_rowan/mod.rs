//! The program over rowan.

#[path = "../program.rs"]
pub mod program;
mod side;
