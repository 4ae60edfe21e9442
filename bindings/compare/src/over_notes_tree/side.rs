//! What the program asks for otherwise of notes_tree.

pub use notes_tree::{
    Direction, GreenElement, GreenNode, GreenNodeBuilder, SyntaxElement, SyntaxKind, SyntaxNode, SyntaxText, TextRange,
    WalkEvent,
};

use notes_tree::{Refusal, Store, SyntaxPath};

/// The text of both sides' types: `Node<'_>` is rowan's node too.
pub type Node<'s> = SyntaxNode<'s>;
pub type Element<'s> = SyntaxElement<'s>;
pub type Text<'s> = SyntaxText<'s>;
pub type Builder<'s> = GreenNodeBuilder;
pub type Place = SyntaxPath;

/// What is found, or nothing where the call is refused.
pub fn answer<T>(call: impl FnOnce() -> Result<T, Refusal>) -> Option<T> {
    call().ok()
}

/// Which record it is.
pub fn identity(element: &Element) -> u64 {
    element.green().number().into()
}

pub fn place(element: &Element) -> Place {
    element.path()
}

/// All that is made.
#[derive(Default)]
pub struct Bench {
    store: Store<'static>,
}

impl Bench {
    pub fn build(&mut self, calls: impl FnOnce(&mut Builder)) -> Option<GreenNode> {
        let mut builder = GreenNodeBuilder::new();
        calls(&mut builder);
        builder.finish(&mut self.store).ok()
    }

    pub fn root(&self, green: &GreenNode) -> Node<'_> {
        SyntaxNode::new_root(&self.store, *green).unwrap()
    }

    pub fn child(&self, green: &GreenNode, index: usize) -> Option<GreenElement> {
        green.child(&self.store, index).ok().map(|(child, _)| child)
    }

    pub fn replace_child(&mut self, green: &GreenNode, index: usize, new: GreenElement) -> Option<GreenNode> {
        green.replace_child(&mut self.store, index, new).ok()
    }

    pub fn insert_child(&mut self, green: &GreenNode, index: usize, new: GreenElement) -> Option<GreenNode> {
        green.insert_child(&mut self.store, index, new).ok()
    }

    pub fn remove_child(&mut self, green: &GreenNode, index: usize) -> Option<GreenNode> {
        green.remove_child(&mut self.store, index).ok()
    }

    pub fn splice_children(
        &mut self,
        green: &GreenNode,
        (from, to): (usize, usize),
        news: Vec<GreenElement>,
    ) -> Option<GreenNode> {
        green.splice_children(&mut self.store, from..to, news).ok()
    }

    pub fn replace_with(&mut self, place: &Place, new: GreenElement) -> Option<GreenNode> {
        place.replace_with(&mut self.store, new).ok()
    }
}
