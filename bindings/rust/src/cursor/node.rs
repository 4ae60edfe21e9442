//! Handles of nodes.

use std::{
    fmt,
    hash::{Hash, Hasher},
    iter,
};

use crate::{
    calls::{Children, Places},
    cursor::{path::where_is, Handle, Preorder, PreorderWithTokens, SyntaxElement, SyntaxPath, SyntaxToken},
    green::{GreenElement, GreenNode, GreenNodeBuilder, Store},
    indexes::Indexes,
    refusal::Refusal,
    syntax_text::SyntaxText,
    utility_types::{Direction, NodeOrToken, TextRange, TextSize, TokenAtOffset, WalkEvent},
    SyntaxKind,
};

/// A node of a tree. Two are equal if they are the same record at the same offset, as in rowan.
#[derive(Clone)]
pub struct SyntaxNode<'s>(pub(crate) Handle<'s>);

impl<'s> SyntaxNode<'s> {
    /// The root of the tree of `green`. [`Refusal::NoSuchElement`] if that is of another store.
    pub fn new_root(store: &'s Store<'s>, green: GreenNode) -> Result<SyntaxNode<'s>, Refusal> {
        let root = store.own(green.into())?;
        let root = Handle::at(store, root, &Indexes::NONE)?;
        root.into_node().ok_or(Refusal::NoSuchElement)
    }

    /// The node's kind. No call.
    #[inline]
    pub fn kind(&self) -> SyntaxKind {
        self.0.at.kind
    }

    /// The node's range, counted from where its root starts. No call.
    #[inline]
    pub fn text_range(&self) -> TextRange {
        self.0.at.range
    }

    /// Which child of its parent it is; 0 for a root. No call.
    #[inline]
    pub fn index(&self) -> usize {
        self.0.index()
    }

    /// The node's text.
    pub fn text(&self) -> SyntaxText<'s> {
        SyntaxText::new(self.clone())
    }

    /// The node's record.
    pub fn green(&self) -> GreenNode {
        self.0.green().into_node().expect("a node's record is a node")
    }

    /// Where it stands: to be kept while the store is written, and for [`SyntaxPath::replace_with`].
    pub fn path(&self) -> SyntaxPath {
        self.0.to_path()
    }

    /// The path of an occurrence of `element` in the tree of this node alone, which its path has for a root. Added to rowan.
    pub fn where_is(&self, element: impl Into<GreenElement>) -> Result<Option<SyntaxPath>, Refusal> {
        where_is(self.0.store, self.green(), element.into())
    }

    /// A builder with the calls that make this node's tree anew. So a tree is carried over into a new store when its own is full:
    ///
    /// ```
    /// # use notes_tree::{GreenNodeBuilder, Store, SyntaxKind, SyntaxNode};
    /// # let mut builder = GreenNodeBuilder::new();
    /// # builder.start_node(SyntaxKind(1));
    /// # builder.token(SyntaxKind(2), "BS");
    /// # builder.finish_node();
    /// # let mut store = Store::new();
    /// # let mut root = builder.finish(&mut store)?;
    /// let mut fresh = Store::new();
    /// root = SyntaxNode::new_root(&store, root)?.to_builder().finish(&mut fresh)?;
    /// store = fresh;
    /// assert_eq!(SyntaxNode::new_root(&store, root)?.text(), "BS");
    /// # Ok::<(), Box<dyn std::error::Error>>(())
    /// ```
    pub fn to_builder(&self) -> GreenNodeBuilder {
        let mut builder = GreenNodeBuilder::new();
        for event in self.preorder_with_tokens() {
            match event {
                WalkEvent::Enter(NodeOrToken::Node(node)) => builder.start_node(node.kind()),
                WalkEvent::Enter(NodeOrToken::Token(token)) => builder.token(token.kind(), token.text()),
                WalkEvent::Leave(NodeOrToken::Node(_)) => builder.finish_node(),
                WalkEvent::Leave(NodeOrToken::Token(_)) => {}
            }
        }
        builder
    }

    /// The node as a root of its own.
    pub fn clone_subtree(&self) -> SyntaxNode<'s> {
        SyntaxNode::new_root(self.0.store, self.green()).expect("a node's record is of its store")
    }

    /// The parent, or none at a root.
    #[inline]
    pub fn parent(&self) -> Option<SyntaxNode<'s>> {
        self.0.step(Places::parent)?.into_node()
    }

    /// This node, its parent, and on up to the root.
    pub fn ancestors(&self) -> impl Iterator<Item = SyntaxNode<'s>> {
        iter::successors(Some(self.clone()), SyntaxNode::parent)
    }

    /// The root.
    pub fn tree_top(&self) -> SyntaxNode<'s> {
        self.0.tree_top()
    }

    /// The children that are nodes.
    pub fn children(&self) -> SyntaxNodeChildren<'s> {
        SyntaxNodeChildren(NodesChildren::new(&self.0, false))
    }

    /// All children.
    pub fn children_with_tokens(&self) -> SyntaxElementChildren<'s> {
        SyntaxElementChildren(NodesChildren::new(&self.0, true))
    }

    /// The first child that is a node.
    #[inline]
    pub fn first_child(&self) -> Option<SyntaxNode<'s>> {
        self.0.step(Places::first_child)?.into_node()
    }

    /// The last child that is a node.
    #[inline]
    pub fn last_child(&self) -> Option<SyntaxNode<'s>> {
        self.0.step(Places::last_child)?.into_node()
    }

    /// The first child.
    #[inline]
    pub fn first_child_or_token(&self) -> Option<SyntaxElement<'s>> {
        self.0.step(Places::first_child_or_token)
    }

    /// The last child.
    #[inline]
    pub fn last_child_or_token(&self) -> Option<SyntaxElement<'s>> {
        self.0.step(Places::last_child_or_token)
    }

    /// The next sibling that is a node.
    #[inline]
    pub fn next_sibling(&self) -> Option<SyntaxNode<'s>> {
        self.0.step(Places::next_sibling)?.into_node()
    }

    /// The previous sibling that is a node.
    #[inline]
    pub fn prev_sibling(&self) -> Option<SyntaxNode<'s>> {
        self.0.step(Places::prev_sibling)?.into_node()
    }

    /// The next sibling.
    #[inline]
    pub fn next_sibling_or_token(&self) -> Option<SyntaxElement<'s>> {
        self.0.step(Places::next_sibling_or_token)
    }

    /// The previous sibling.
    #[inline]
    pub fn prev_sibling_or_token(&self) -> Option<SyntaxElement<'s>> {
        self.0.step(Places::prev_sibling_or_token)
    }

    /// The token at the end of first children. None if that is a node without children: it looks no further, as in rowan.
    #[inline]
    pub fn first_token(&self) -> Option<SyntaxToken<'s>> {
        self.0.step(Places::first_token)?.into_token()
    }

    /// The token at the end of last children, in the same way.
    #[inline]
    pub fn last_token(&self) -> Option<SyntaxToken<'s>> {
        self.0.step(Places::last_token)?.into_token()
    }

    /// This node, then its siblings that are nodes, one way.
    pub fn siblings(&self, direction: Direction) -> impl Iterator<Item = SyntaxNode<'s>> {
        iter::successors(Some(self.clone()), move |node| match direction {
            Direction::Next => node.next_sibling(),
            Direction::Prev => node.prev_sibling(),
        })
    }

    /// This node, then all its siblings, one way.
    pub fn siblings_with_tokens(&self, direction: Direction) -> impl Iterator<Item = SyntaxElement<'s>> {
        SyntaxElement::from(self.clone()).siblings(direction)
    }

    /// This node and the nodes below it, in preorder.
    pub fn descendants(&self) -> impl Iterator<Item = SyntaxNode<'s>> {
        self.preorder().entered()
    }

    /// This node and all elements below it, in preorder.
    pub fn descendants_with_tokens(&self) -> impl Iterator<Item = SyntaxElement<'s>> {
        self.preorder_with_tokens().entered()
    }

    /// The walk of this node and the nodes below it.
    pub fn preorder(&self) -> Preorder<'s> {
        Preorder::new(self)
    }

    /// The walk of this node and all elements below it.
    pub fn preorder_with_tokens(&self) -> PreorderWithTokens<'s> {
        PreorderWithTokens::new(self)
    }

    /// The token that the offset lies in, or the two that meet there; empty tokens are passed over. [`Refusal::Outside`] if the
    /// offset is outside of the node.
    pub fn token_at_offset(&self, offset: TextSize) -> Result<TokenAtOffset<SyntaxToken<'s>>, Refusal> {
        let Handle { store, root, ref at } = self.0;
        let found = store.places.token_at_offset(root, &at.path, offset)?;
        Ok(found.map(|at| SyntaxToken(self.0.to(at))))
    }

    /// The lowest element that covers the range; of two at an empty range, the left one. [`Refusal::Outside`] if the range is
    /// not within the node.
    pub fn covering_element(&self, range: TextRange) -> Result<SyntaxElement<'s>, Refusal> {
        let found = self.0.ask(|places, root, path| places.covering_element(root, path, range))?;
        Ok(found.expect("a node covers what is within it"))
    }

    /// The child that contains the range, if there is one. [`Refusal::Outside`] if the range starts before the node or
    /// ends before it starts.
    pub fn child_or_token_at_range(&self, range: TextRange) -> Result<Option<SyntaxElement<'s>>, Refusal> {
        self.0.ask(|places, root, path| places.child_or_token_at_range(root, path, range))
    }
}

impl PartialEq for SyntaxNode<'_> {
    fn eq(&self, other: &SyntaxNode<'_>) -> bool {
        self.0.is_same(&other.0)
    }
}

impl Eq for SyntaxNode<'_> {}

impl Hash for SyntaxNode<'_> {
    fn hash<H: Hasher>(&self, state: &mut H) {
        self.0.hash(state);
    }
}

impl fmt::Debug for SyntaxNode<'_> {
    fn fmt(&self, f: &mut fmt::Formatter<'_>) -> fmt::Result {
        self.0.debug("SyntaxNode", f)
    }
}

impl fmt::Display for SyntaxNode<'_> {
    fn fmt(&self, f: &mut fmt::Formatter<'_>) -> fmt::Result {
        fmt::Display::fmt(&self.text(), f)
    }
}

/// A node, and its children as calls find them.
#[derive(Clone)]
struct NodesChildren<'s> {
    node: Handle<'s>,
    found: Children<'s>,
}

impl<'s> NodesChildren<'s> {
    fn new(node: &Handle<'s>, with_tokens: bool) -> NodesChildren<'s> {
        let found = Children::new(&node.store.places, node.root, &node.at.path, with_tokens);
        NodesChildren { node: node.clone(), found }
    }
}

/// The children of a node that are nodes.
#[derive(Clone)]
pub struct SyntaxNodeChildren<'s>(NodesChildren<'s>);

impl<'s> Iterator for SyntaxNodeChildren<'s> {
    type Item = SyntaxNode<'s>;

    #[inline]
    fn next(&mut self) -> Option<SyntaxNode<'s>> {
        let found = self.0.found.next()?.into_node()?;
        Some(SyntaxNode(self.0.node.to(found)))
    }
}

impl fmt::Debug for SyntaxNodeChildren<'_> {
    fn fmt(&self, f: &mut fmt::Formatter<'_>) -> fmt::Result {
        self.0.node.debug("SyntaxNodeChildren", f)
    }
}

/// The children of a node.
#[derive(Clone)]
pub struct SyntaxElementChildren<'s>(NodesChildren<'s>);

impl<'s> Iterator for SyntaxElementChildren<'s> {
    type Item = SyntaxElement<'s>;

    #[inline]
    fn next(&mut self) -> Option<SyntaxElement<'s>> {
        let Handle { store, root, .. } = self.0.node;
        self.0.found.next().map(|found| Handle::element(store, root, found))
    }
}

impl fmt::Debug for SyntaxElementChildren<'_> {
    fn fmt(&self, f: &mut fmt::Formatter<'_>) -> fmt::Result {
        self.0.node.debug("SyntaxElementChildren", f)
    }
}
