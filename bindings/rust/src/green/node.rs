//! Elements by their numbers, and the edits of a node's children.

use std::ops::{Bound, RangeBounds};

use crate::{
    calls::Words,
    ffi,
    green::{builder::Run, BuildError, GreenNodeBuilder, Store},
    refusal::Refusal,
    utility_types::{NodeOrToken, TextSize},
    SyntaxKind,
};

/// A node of a store, by its number.
///
/// It means something in its own store alone: put to another one it is refused with [`Refusal::NoSuchElement`]. Two are
/// equal if they are the same record.
#[derive(Debug, Clone, Copy, PartialEq, Eq, Hash)]
pub struct GreenNode {
    pub(crate) store: u64,
    pub(crate) number: u32,
}

/// A token of a store, by its number: as [`GreenNode`].
#[derive(Debug, Clone, Copy, PartialEq, Eq, Hash)]
pub struct GreenToken {
    pub(crate) store: u64,
    pub(crate) number: u32,
}

/// An element of a store, by its number.
pub type GreenElement = NodeOrToken<GreenNode, GreenToken>;

impl From<GreenNode> for GreenElement {
    fn from(node: GreenNode) -> GreenElement {
        NodeOrToken::Node(node)
    }
}

impl From<GreenToken> for GreenElement {
    fn from(token: GreenToken) -> GreenElement {
        NodeOrToken::Token(token)
    }
}

impl GreenElement {
    /// The record's number in its store.
    pub fn number(&self) -> u32 {
        match self {
            NodeOrToken::Node(node) => node.number,
            NodeOrToken::Token(token) => token.number,
        }
    }
}

impl GreenToken {
    pub(crate) fn named(store: &Store, number: u32) -> GreenToken {
        GreenToken { store: store.id, number }
    }

    /// The token of that kind and text: an earlier one, or a new record.
    ///
    /// [`Refusal::Text`], [`Refusal::TooLarge`] or [`Refusal::Full`] as of an event of a builder.
    pub fn new(store: &mut Store, kind: SyntaxKind, text: &str) -> Result<GreenToken, Refusal> {
        let mut builder = GreenNodeBuilder::new();
        builder.token(kind, text);
        // A token alone is no tree, so such a run is refused at its end, and its one event stays.
        let Run { yields, root } = builder.run(store);
        match (yields.first(), root) {
            (Some(Some(NodeOrToken::Token(token))), _) => Ok(*token),
            (_, Err(BuildError::Refused { refusal, .. })) => Err(refusal),
            _ => unreachable!("a token is yielded or refused"),
        }
    }

    /// The record's number in its store.
    pub fn number(self) -> u32 {
        self.number
    }

    /// The token's kind.
    pub fn kind(self, store: &Store) -> Result<SyntaxKind, Refusal> {
        Ok(store.record(self)?.kind)
    }

    /// The length of the token's text.
    pub fn text_len(self, store: &Store) -> Result<TextSize, Refusal> {
        Ok(store.record(self)?.text_len)
    }
}

impl GreenNode {
    pub(crate) fn named(store: &Store, number: u32) -> GreenNode {
        GreenNode { store: store.id, number }
    }

    /// The record's number in its store.
    pub fn number(self) -> u32 {
        self.number
    }

    /// The node's kind.
    pub fn kind(self, store: &Store) -> Result<SyntaxKind, Refusal> {
        Ok(store.record(self)?.kind)
    }

    /// The length of the node's text.
    pub fn text_len(self, store: &Store) -> Result<TextSize, Refusal> {
        Ok(store.record(self)?.text_len)
    }

    /// The node's children, each with its offset in the node.
    pub fn children<'s>(self, store: &'s Store<'s>) -> Result<Children<'s>, Refusal> {
        Ok(Children { store, node: self, index: 0, count: store.record(self)?.children })
    }

    /// Child `index`, and its offset in the node. [`Refusal::Outside`] if there is no such child.
    pub fn child(self, store: &Store, index: usize) -> Result<(GreenElement, TextSize), Refusal> {
        let mut words = Words::default();
        store.places.child(store.own(self.into())?, index, &mut words)?;
        Ok((store.element(words[0] as u32)?, words[1] as TextSize))
    }

    /// A new node like this one, with `new_child` in place of child `index`; past the last child, a copy.
    pub fn replace_child(
        self,
        store: &mut Store,
        index: usize,
        new_child: impl Into<GreenElement>,
    ) -> Result<GreenNode, Refusal> {
        let new_child = store.own(new_child.into())?;
        self.edit(store, ffi::REPLACE_CHILD, index, new_child as usize, &[])
    }

    /// A new node like this one, with `new_child` before child `index`, or after the last one.
    pub fn insert_child(
        self,
        store: &mut Store,
        index: usize,
        new_child: impl Into<GreenElement>,
    ) -> Result<GreenNode, Refusal> {
        let new_child = store.own(new_child.into())?;
        self.edit(store, ffi::INSERT_CHILD, index, new_child as usize, &[])
    }

    /// A new node like this one, without child `index`.
    pub fn remove_child(self, store: &mut Store, index: usize) -> Result<GreenNode, Refusal> {
        self.edit(store, ffi::REMOVE_CHILD, index, 0, &[])
    }

    /// A new node like this one, with other children in place of those in `range`.
    ///
    /// ```
    /// use notes_tree::{GreenNodeBuilder, GreenToken, Store, SyntaxKind, SyntaxNode};
    ///
    /// let mut store = Store::new();
    /// let mut builder = GreenNodeBuilder::new();
    /// builder.start_node(SyntaxKind(1));
    /// builder.token(SyntaxKind(2), "BS");
    /// builder.token(SyntaxKind(3), " ");
    /// builder.token(SyntaxKind(4), "12");
    /// builder.finish_node();
    /// let root = builder.finish(&mut store)?;
    ///
    /// let point = GreenToken::new(&mut store, SyntaxKind(4), "CP4")?;
    /// let changed = root.splice_children(&mut store, 2.., [point.into()])?;
    /// assert_eq!(SyntaxNode::new_root(&store, changed)?.text(), "BS CP4");
    /// assert_eq!(SyntaxNode::new_root(&store, root)?.text(), "BS 12");
    /// # Ok::<(), Box<dyn std::error::Error>>(())
    /// ```
    pub fn splice_children<R, I>(self, store: &mut Store, range: R, replace_with: I) -> Result<GreenNode, Refusal>
    where
        R: RangeBounds<usize>,
        I: IntoIterator<Item = GreenElement>,
    {
        let count = store.record(self)?.children;
        // A bound over every number is outside of every node.
        let from = match range.start_bound() {
            Bound::Included(from) => *from,
            Bound::Excluded(before) => before.checked_add(1).ok_or(Refusal::Outside)?,
            Bound::Unbounded => 0,
        };
        let to = match range.end_bound() {
            Bound::Included(last) => last.checked_add(1).ok_or(Refusal::Outside)?,
            Bound::Excluded(to) => *to,
            Bound::Unbounded => count,
        };
        let news: Result<Vec<u32>, Refusal> = replace_with.into_iter().map(|element| store.own(element)).collect();
        self.edit(store, ffi::SPLICE_CHILDREN, from, to, &news?)
    }

    fn edit(self, store: &mut Store, code: usize, from: usize, to: usize, news: &[u32]) -> Result<GreenNode, Refusal> {
        let number = store.own(self.into())?;
        let made = store.places.edit(code, number, from, to, news, &[0; 64])?;
        Ok(GreenNode::named(store, made))
    }
}

/// The children of a [`GreenNode`], each with its offset in the node.
#[derive(Debug, Clone)]
pub struct Children<'s> {
    store: &'s Store<'s>,
    node: GreenNode,
    index: usize,
    count: usize,
}

impl Iterator for Children<'_> {
    type Item = (GreenElement, TextSize);

    fn next(&mut self) -> Option<Self::Item> {
        let child = self.node.child(self.store, self.index).ok()?;
        self.index += 1;
        Some(child)
    }

    fn size_hint(&self) -> (usize, Option<usize>) {
        (self.count - self.index, Some(self.count - self.index))
    }
}

impl ExactSizeIterator for Children<'_> {}
