//! rowan's cursor: handles that name an element by its path from a root, and know its kind and range.

mod element;
mod handle;
mod node;
mod path;
mod preorder;
mod token;

pub use self::{
    element::SyntaxElement,
    node::{SyntaxElementChildren, SyntaxNode, SyntaxNodeChildren},
    path::SyntaxPath,
    preorder::{Preorder, PreorderWithTokens},
    token::SyntaxToken,
};

pub(crate) use self::handle::Handle;
