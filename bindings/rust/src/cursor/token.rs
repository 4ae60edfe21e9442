//! Handles of tokens.

use std::{
    fmt,
    hash::{Hash, Hasher},
    iter,
};

use crate::{
    calls::Places,
    cursor::{Handle, SyntaxElement, SyntaxNode, SyntaxPath},
    green::GreenToken,
    utility_types::{Direction, TextRange},
    SyntaxKind,
};

/// A token of a tree. Two are equal if they are the same record at the same offset, as in rowan.
#[derive(Clone)]
pub struct SyntaxToken<'s>(pub(crate) Handle<'s>);

impl<'s> SyntaxToken<'s> {
    /// The token's kind. No call.
    #[inline]
    pub fn kind(&self) -> SyntaxKind {
        self.0.at.kind
    }

    /// The token's range, counted from where its root starts. No call.
    #[inline]
    pub fn text_range(&self) -> TextRange {
        self.0.at.range
    }

    /// Which child of its parent it is. No call.
    #[inline]
    pub fn index(&self) -> usize {
        self.0.index()
    }

    /// The token's text, in the store's own bytes.
    #[inline]
    pub fn text(&self) -> &'s str {
        let Handle { store, root, ref at } = self.0;
        store.places.token_text(root, &at.path).expect("a token's handle names a token")
    }

    /// The token's record.
    pub fn green(&self) -> GreenToken {
        self.0.green().into_token().expect("a token's record is a token")
    }

    /// Where it stands: to be kept while the store is written, and for [`SyntaxPath::replace_with`].
    pub fn path(&self) -> SyntaxPath {
        self.0.to_path()
    }

    /// The parent, which every token has.
    #[inline]
    pub fn parent(&self) -> Option<SyntaxNode<'s>> {
        self.0.step(Places::parent)?.into_node()
    }

    /// The parent, its parent, and on up to the root.
    pub fn ancestors(&self) -> impl Iterator<Item = SyntaxNode<'s>> {
        iter::successors(self.parent(), SyntaxNode::parent)
    }

    /// The same as [`ancestors`](SyntaxToken::ancestors): rowan has both names, and advises this one.
    pub fn parent_ancestors(&self) -> impl Iterator<Item = SyntaxNode<'s>> {
        self.ancestors()
    }

    /// The root.
    pub fn tree_top(&self) -> SyntaxNode<'s> {
        self.0.tree_top()
    }

    /// The next sibling.
    #[inline]
    pub fn next_sibling_or_token(&self) -> Option<SyntaxElement<'s>> {
        self.0.step(Places::next_sibling_or_token)
    }

    /// The previous sibling.
    #[inline]
    pub fn prev_sibling_or_token(&self) -> Option<SyntaxElement<'s>> {
        self.0.step(Places::prev_sibling_or_token)
    }

    /// This token, then all its siblings, one way.
    pub fn siblings_with_tokens(&self, direction: Direction) -> impl Iterator<Item = SyntaxElement<'s>> {
        SyntaxElement::from(self.clone()).siblings(direction)
    }

    /// The first token of what follows: of the next sibling, or of that of the lowest ancestor that has one. None if that has
    /// no first token: it looks no further, as in rowan.
    #[inline]
    pub fn next_token(&self) -> Option<SyntaxToken<'s>> {
        self.0.step(Places::next_token)?.into_token()
    }

    /// The last token of what comes before, in the same way.
    #[inline]
    pub fn prev_token(&self) -> Option<SyntaxToken<'s>> {
        self.0.step(Places::prev_token)?.into_token()
    }
}

impl PartialEq for SyntaxToken<'_> {
    fn eq(&self, other: &SyntaxToken<'_>) -> bool {
        self.0.is_same(&other.0)
    }
}

impl Eq for SyntaxToken<'_> {}

impl Hash for SyntaxToken<'_> {
    fn hash<H: Hasher>(&self, state: &mut H) {
        self.0.hash(state);
    }
}

impl fmt::Debug for SyntaxToken<'_> {
    fn fmt(&self, f: &mut fmt::Formatter<'_>) -> fmt::Result {
        self.0.debug("SyntaxToken", f)
    }
}

impl fmt::Display for SyntaxToken<'_> {
    fn fmt(&self, f: &mut fmt::Formatter<'_>) -> fmt::Result {
        fmt::Display::fmt(self.text(), f)
    }
}
