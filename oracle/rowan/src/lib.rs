//! rowan 0.17.0. The modules are rowan's own files, copied here by `fetch` and never edited; the
//! sources that document 01 names lack a `lib.rs`, so this one declares and exports them.

// Lints of rowan's files are not ours to mend, nor is their layout.
#![allow(warnings)]

#[rustfmt::skip]
mod api;
#[rustfmt::skip]
mod arc;
#[rustfmt::skip]
pub mod ast;
#[rustfmt::skip]
mod cow_mut;
#[rustfmt::skip]
pub mod cursor;
#[rustfmt::skip]
mod green;
#[rustfmt::skip]
mod syntax_text;
#[rustfmt::skip]
mod utility_types;

pub use text_size::{TextRange, TextSize};

pub use crate::{
    api::{
        Language, Preorder, PreorderWithTokens, SyntaxElement, SyntaxElementChildren, SyntaxNode,
        SyntaxNodeChildren, SyntaxToken,
    },
    green::{
        Checkpoint, Children, GreenNode, GreenNodeBuilder, GreenNodeData, GreenToken,
        GreenTokenData, NodeCache, SyntaxKind,
    },
    syntax_text::SyntaxText,
    utility_types::{Direction, NodeOrToken, TokenAtOffset, WalkEvent},
};

/// The hashes that rowan's node cache works with. They are visible inside the crate only, and
/// document 01 defines them as marks, so a comparison wants to see them.
pub mod hashes {
    use crate::{GreenNode, GreenToken, NodeCache, NodeOrToken, SyntaxKind};

    /// The hash under which the cache keeps a token.
    pub fn of_token(kind: SyntaxKind, text: &str) -> u64 {
        NodeCache::default().token(kind, text).0
    }

    /// The hash under which the cache keeps a node over children of these hashes; 0 for a node
    /// that it does not keep.
    pub fn of_node(
        kind: SyntaxKind,
        mut children: Vec<(u64, NodeOrToken<GreenNode, GreenToken>)>,
    ) -> u64 {
        NodeCache::default().node(kind, &mut children, 0).0
    }
}
