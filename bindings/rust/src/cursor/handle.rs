//! What nodes and tokens have in common.

use std::{
    fmt,
    hash::{Hash, Hasher},
};

use crate::{
    calls::{Answer, Found, Places, Words},
    cursor::{SyntaxElement, SyntaxNode, SyntaxPath, SyntaxToken},
    ffi,
    green::{GreenElement, GreenNode, Store},
    indexes::Indexes,
    refusal::Refusal,
    utility_types::NodeOrToken,
};

/// An element of a tree: where it is, and what a reader asks for most. It stays as it is while the store is borrowed.
#[derive(Clone)]
pub(crate) struct Handle<'s> {
    pub store: &'s Store<'s>,
    pub root: u32,
    pub at: Found,
}

/// Says why a call is not refused: a handle names an element of its store.
const NAMED: &str = "a handle names an element of its store";

impl<'s> Handle<'s> {
    /// The element at a path.
    pub fn at(store: &'s Store<'s>, root: u32, path: &Indexes) -> Result<SyntaxElement<'s>, Refusal> {
        let found = store.places.here(root, path)?.expect("an element that is there answers where it is");
        Ok(Handle::element(store, root, found))
    }

    /// What a call has found under a root.
    #[inline]
    pub fn element(store: &'s Store<'s>, root: u32, found: NodeOrToken<Found, Found>) -> SyntaxElement<'s> {
        match found {
            NodeOrToken::Node(at) => NodeOrToken::Node(SyntaxNode(Handle { store, root, at })),
            NodeOrToken::Token(at) => NodeOrToken::Token(SyntaxToken(Handle { store, root, at })),
        }
    }

    /// The same tree's element that a call has found.
    #[inline]
    pub fn to(&self, at: Found) -> Handle<'s> {
        Handle { store: self.store, root: self.root, at }
    }

    /// The element that a question answers.
    #[inline]
    pub fn ask<Q>(&self, question: Q) -> Result<Option<SyntaxElement<'s>>, Refusal>
    where
        Q: FnOnce(&Places<'s>, u32, &Indexes) -> Answer,
    {
        let found = question(&self.store.places, self.root, &self.at.path)?;
        Ok(found.map(|found| Handle::element(self.store, self.root, found)))
    }

    /// The same of a question that is refused only where there is no such element.
    #[inline]
    pub fn step<Q>(&self, question: Q) -> Option<SyntaxElement<'s>>
    where
        Q: FnOnce(&Places<'s>, u32, &Indexes) -> Answer,
    {
        self.ask(question).expect(NAMED)
    }

    #[inline]
    pub fn index(&self) -> usize {
        self.at.path.last().map_or(0, |index| *index as usize)
    }

    pub fn to_path(&self) -> SyntaxPath {
        SyntaxPath { root: GreenNode::named(self.store, self.root), indexes: self.at.path.clone() }
    }

    pub fn tree_top(&self) -> SyntaxNode<'s> {
        let top = Handle::at(self.store, self.root, &Indexes::NONE).ok().and_then(NodeOrToken::into_node);
        top.expect(NAMED)
    }

    /// The record of this element: down the path, child by child.
    pub fn green(&self) -> GreenElement {
        let (mut number, mut words) = (self.root, Words::default());
        for index in self.at.path.iter() {
            self.store.places.child(number, *index as usize, &mut words).expect(NAMED);
            number = words[0] as u32;
        }
        self.store.element(number).expect(NAMED)
    }

    /// Are they the same record at the same offset?
    pub fn is_same(&self, other: &Handle) -> bool {
        // What a handle keeps decides most cases: a record has one kind and one length.
        if self.store.id != other.store.id || self.at.kind != other.at.kind || self.at.range != other.at.range {
            return false;
        }
        let (path, other_path) = (&self.at.path, &other.at.path);
        if self.root == other.root && **path == **other_path {
            return true;
        }
        let paths = (&mut path.to_place(), &mut other_path.to_place());
        let operands = [other.root as usize, other_path.len(), 0, 0, 0, 0, 0, 0];
        let places = &self.store.places;
        let outcome = places.query(ffi::SAME_ELEMENT, self.root, paths, path.len(), operands, &mut Words::default());
        outcome.expect(NAMED) == ffi::YES
    }

    /// Handles that are the same have the same hash: it is made of the record and the offset, which [`is_same`](Handle::is_same) compares.
    pub fn hash<H: Hasher>(&self, state: &mut H) {
        self.green().hash(state);
        self.at.range.start().hash(state);
    }

    pub fn debug(&self, name: &str, f: &mut fmt::Formatter<'_>) -> fmt::Result {
        f.debug_struct(name).field("kind", &self.at.kind).field("text_range", &self.at.range).finish()
    }
}
