//! The program over notes_tree.

#[path = "../program.rs"]
pub mod program;
mod side;
