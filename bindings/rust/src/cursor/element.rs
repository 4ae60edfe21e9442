//! Nodes or tokens.

use std::iter;

use crate::{
    cursor::{SyntaxNode, SyntaxPath, SyntaxToken},
    green::GreenElement,
    utility_types::{Direction, NodeOrToken, TextRange},
    SyntaxKind,
};

/// An element of a tree.
pub type SyntaxElement<'s> = NodeOrToken<SyntaxNode<'s>, SyntaxToken<'s>>;

impl<'s> From<SyntaxNode<'s>> for SyntaxElement<'s> {
    fn from(node: SyntaxNode<'s>) -> SyntaxElement<'s> {
        NodeOrToken::Node(node)
    }
}

impl<'s> From<SyntaxToken<'s>> for SyntaxElement<'s> {
    fn from(token: SyntaxToken<'s>) -> SyntaxElement<'s> {
        NodeOrToken::Token(token)
    }
}

/// What nodes and tokens both answer.
macro_rules! either {
    ($element:expr, $name:ident) => {
        match $element {
            NodeOrToken::Node(it) => it.$name(),
            NodeOrToken::Token(it) => it.$name(),
        }
    };
}

impl<'s> SyntaxElement<'s> {
    /// The element's kind. No call.
    #[inline]
    pub fn kind(&self) -> SyntaxKind {
        either!(self, kind)
    }

    /// The element's range, counted from where its root starts. No call.
    #[inline]
    pub fn text_range(&self) -> TextRange {
        either!(self, text_range)
    }

    /// Which child of its parent it is; 0 for a root. No call.
    #[inline]
    pub fn index(&self) -> usize {
        either!(self, index)
    }

    /// The element's record.
    pub fn green(&self) -> GreenElement {
        match self {
            NodeOrToken::Node(it) => it.green().into(),
            NodeOrToken::Token(it) => it.green().into(),
        }
    }

    /// Where it stands: to be kept while the store is written, and for [`SyntaxPath::replace_with`].
    pub fn path(&self) -> SyntaxPath {
        either!(self, path)
    }

    /// The parent, or none at a root.
    #[inline]
    pub fn parent(&self) -> Option<SyntaxNode<'s>> {
        either!(self, parent)
    }

    /// The nodes from this element, or a token's parent, up to the root.
    pub fn ancestors(&self) -> impl Iterator<Item = SyntaxNode<'s>> {
        let first = match self {
            NodeOrToken::Node(it) => Some(it.clone()),
            NodeOrToken::Token(it) => it.parent(),
        };
        iter::successors(first, SyntaxNode::parent)
    }

    /// The root.
    pub fn tree_top(&self) -> SyntaxNode<'s> {
        either!(self, tree_top)
    }

    /// A node's first token, or the token itself.
    pub fn first_token(&self) -> Option<SyntaxToken<'s>> {
        match self {
            NodeOrToken::Node(it) => it.first_token(),
            NodeOrToken::Token(it) => Some(it.clone()),
        }
    }

    /// A node's last token, or the token itself.
    pub fn last_token(&self) -> Option<SyntaxToken<'s>> {
        match self {
            NodeOrToken::Node(it) => it.last_token(),
            NodeOrToken::Token(it) => Some(it.clone()),
        }
    }

    /// The next sibling.
    #[inline]
    pub fn next_sibling_or_token(&self) -> Option<SyntaxElement<'s>> {
        either!(self, next_sibling_or_token)
    }

    /// The previous sibling.
    #[inline]
    pub fn prev_sibling_or_token(&self) -> Option<SyntaxElement<'s>> {
        either!(self, prev_sibling_or_token)
    }

    pub(super) fn siblings(self, direction: Direction) -> impl Iterator<Item = SyntaxElement<'s>> {
        iter::successors(Some(self), move |element| match direction {
            Direction::Next => element.next_sibling_or_token(),
            Direction::Prev => element.prev_sibling_or_token(),
        })
    }
}
