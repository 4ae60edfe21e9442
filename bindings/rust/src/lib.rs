//! rowan 0.17.0's builder, green tree, cursor and text, over a library in which every function is proved to meet its contract.
//!
//! The names are rowan's. Three things differ:
//!
//! - A [`Store`] holds the trees. A [`GreenNode`] or [`GreenToken`] is a number in it, so calls take the store: for reading
//!   where a handle is made, alone where something is written ([`GreenNodeBuilder::finish`], the edits of [`GreenNode`] and
//!   [`SyntaxPath::replace_with`]). Rust's borrow rules keep a walk and a writing call apart.
//! - What rowan panics at is an error, [`Refusal`], and changes nothing.
//! - Text is of bytes under 128, and a store has limits: see [`Refusal`].
//!
//! ```
//! use notes_tree::{GreenNodeBuilder, Store, SyntaxKind, SyntaxNode};
//!
//! let mut builder = GreenNodeBuilder::new();
//! builder.start_node(SyntaxKind(1));
//! builder.token(SyntaxKind(2), "BS");
//! builder.token(SyntaxKind(3), " ");
//! builder.token(SyntaxKind(4), "12");
//! builder.finish_node();
//!
//! let mut store = Store::new();
//! let green = builder.finish(&mut store)?;
//! let root = SyntaxNode::new_root(&store, green)?;
//! assert_eq!(root.text(), "BS 12");
//! let at_two: Vec<&str> = root.token_at_offset(2)?.map(|token| token.text()).collect();
//! assert_eq!(at_two, ["BS", " "]);
//! # Ok::<(), Box<dyn std::error::Error>>(())
//! ```

#![deny(missing_docs)]
#![deny(unsafe_op_in_unsafe_fn)]

mod calls;
mod cursor;
mod ffi;
mod green;
mod indexes;
mod refusal;
mod syntax_text;
mod utility_types;

pub use crate::{
    cursor::{
        Preorder, PreorderWithTokens, SyntaxElement, SyntaxElementChildren, SyntaxNode, SyntaxNodeChildren, SyntaxPath,
        SyntaxToken,
    },
    green::{
        BuildError, Checkpoint, Children, GreenElement, GreenNode, GreenNodeBuilder, GreenToken, Record, Run, Sheet,
        Store, SyntaxKind,
    },
    refusal::Refusal,
    syntax_text::SyntaxText,
    utility_types::{Direction, NodeOrToken, TextRange, TextSize, TokenAtOffset, WalkEvent},
};
