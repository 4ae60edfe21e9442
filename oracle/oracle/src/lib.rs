//! The test oracle for a port of rowan 0.17.0 as document 01 scopes it.
//!
//! Two readings answer call scripts: the [`adapter`] over rowan itself, and the [`model`], written
//! from document 01 alone. They are compared with each other and with any program that replays
//! scripts.

pub mod adapter;
pub mod commands;
pub mod compare;
pub mod generate;
pub mod model;
pub mod reply;
pub mod script;
pub mod sheet;
