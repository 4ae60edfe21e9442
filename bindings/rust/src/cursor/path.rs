//! Places in trees that outlast a borrow of the store.

use crate::{
    calls::Words,
    cursor::{Handle, SyntaxElement},
    ffi,
    green::{GreenElement, GreenNode, Store},
    indexes::Indexes,
    refusal::Refusal,
};

/// Where an element stands: a root, and child indexes from there down. It borrows no store, so it may be kept while the store
/// is written, and [`in_tree`](SyntaxPath::in_tree) puts it into the new tree.
#[derive(Debug, Clone)]
pub struct SyntaxPath {
    pub(crate) root: GreenNode,
    pub(crate) indexes: Indexes,
}

impl SyntaxPath {
    /// The path of these child indexes. [`Refusal::NoSuchElement`] if there are more than 64: no tree is higher.
    pub fn new(root: GreenNode, indexes: &[u32]) -> Result<SyntaxPath, Refusal> {
        match indexes.len() {
            0..=64 => Ok(SyntaxPath { root, indexes: Indexes::new(indexes) }),
            _ => Err(Refusal::NoSuchElement),
        }
    }

    /// The root.
    pub fn root(&self) -> GreenNode {
        self.root
    }

    /// The child indexes, from the root's down.
    pub fn indexes(&self) -> &[u32] {
        &self.indexes
    }

    /// The same indexes in another tree, as that which an edit has answered.
    pub fn in_tree(&self, root: GreenNode) -> SyntaxPath {
        SyntaxPath { root, ..self.clone() }
    }

    /// The element there. [`Refusal::NoSuchElement`] if there is none.
    pub fn element<'s>(&self, store: &'s Store<'s>) -> Result<SyntaxElement<'s>, Refusal> {
        let root = store.own(self.root.into())?;
        Handle::at(store, root, &self.indexes)
    }

    /// Makes a tree like this one with `replacement` in this element's place, and answers its root. rowan's
    /// `SyntaxNode::replace_with` and `SyntaxToken::replace_with`.
    ///
    /// [`Refusal::OtherKind`] if the replacement is of another kind.
    ///
    /// ```
    /// use notes_tree::{GreenNodeBuilder, GreenToken, Store, SyntaxKind, SyntaxNode};
    ///
    /// let mut store = Store::new();
    /// let mut builder = GreenNodeBuilder::new();
    /// builder.start_node(SyntaxKind(1));
    /// builder.token(SyntaxKind(2), "ANG ");
    /// builder.token(SyntaxKind(3), "88-42-15");
    /// builder.finish_node();
    /// let root = builder.finish(&mut store)?;
    ///
    /// let path = SyntaxNode::new_root(&store, root)?.last_token().unwrap().path();
    /// let angle = GreenToken::new(&mut store, SyntaxKind(3), "88-42-25")?;
    /// let corrected = path.replace_with(&mut store, angle)?;
    /// assert_eq!(SyntaxNode::new_root(&store, corrected)?.text(), "ANG 88-42-25");
    /// assert_eq!(path.in_tree(corrected).element(&store)?.to_string(), "88-42-25");
    /// # Ok::<(), Box<dyn std::error::Error>>(())
    /// ```
    pub fn replace_with(&self, store: &mut Store, replacement: impl Into<GreenElement>) -> Result<GreenNode, Refusal> {
        let root = store.own(self.root.into())?;
        let replacement = store.own(replacement.into())? as usize;
        let (depth, path) = (self.indexes.len(), self.indexes.to_place());
        let made = store.places.edit(ffi::REPLACE_WITH, root, depth, replacement, &[], &path)?;
        Ok(GreenNode::named(store, made))
    }
}

/// The path of an occurrence of an element under a root.
pub(crate) fn where_is(store: &Store, root: GreenNode, element: GreenElement) -> Result<Option<SyntaxPath>, Refusal> {
    let number = store.own(element)? as usize;
    let (mut path, mut words) = ([0; 64], Words::default());
    let operands = [number, 0, 0, 0, 0, 0, 0, 0];
    let paths = (&mut path, &mut [0; 64]);
    let outcome = store.places.query(ffi::WHERE_IS, root.number, paths, 0, operands, &mut words)?;
    Ok((outcome == ffi::PATH).then(|| SyntaxPath { root, indexes: Indexes::new(&path[..words[0]]) }))
}
