//! The store, its elements by their numbers, the builder, and the edits of a node's children.

mod builder;
mod node;
mod sheet;
mod store;

pub use self::{
    builder::{BuildError, Checkpoint, GreenNodeBuilder, Run},
    node::{Children, GreenElement, GreenNode, GreenToken},
    sheet::Sheet,
    store::{Record, Store},
};

/// The kind of a token or node. What kinds mean is the parser's business.
#[derive(Debug, Clone, Copy, PartialEq, Eq, PartialOrd, Ord, Hash)]
pub struct SyntaxKind(pub u16);
