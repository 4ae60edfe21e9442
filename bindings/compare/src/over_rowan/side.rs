//! What the program asks for otherwise of rowan.

pub use rowan::{
    cursor::{SyntaxElement, SyntaxNode},
    Direction, GreenNode, GreenNodeBuilder, SyntaxKind, SyntaxText, TextRange, WalkEvent,
};

use rowan::{GreenToken, NodeCache, NodeOrToken};
use std::{
    cell::Cell,
    panic::{self, AssertUnwindSafe},
    sync::Once,
};

pub type Node<'s> = SyntaxNode;
pub type Element<'s> = SyntaxElement;
pub type Text<'s> = SyntaxText;
pub type Builder<'s> = GreenNodeBuilder<'s>;
pub type Place = SyntaxElement;
pub type GreenElement = NodeOrToken<GreenNode, GreenToken>;

thread_local! {
    static IS_EXPECTED: Cell<bool> = const { Cell::new(false) };
}

/// What is found, or nothing where the call panics.
pub fn answer<T>(call: impl FnOnce() -> T) -> Option<T> {
    static HOOK: Once = Once::new();
    HOOK.call_once(|| {
        let usual = panic::take_hook();
        panic::set_hook(Box::new(move |info| {
            if !IS_EXPECTED.get() {
                usual(info)
            }
        }));
    });
    IS_EXPECTED.set(true);
    let outcome = panic::catch_unwind(AssertUnwindSafe(call));
    IS_EXPECTED.set(false);
    outcome.ok()
}

/// Which record it is.
pub fn identity(element: &Element) -> u64 {
    match element {
        NodeOrToken::Node(node) => node.green() as *const _ as *const u8 as u64,
        NodeOrToken::Token(token) => token.green() as *const _ as *const u8 as u64,
    }
}

pub fn place(element: &Element) -> Place {
    element.clone()
}

/// All that is made.
#[derive(Default)]
pub struct Bench {
    cache: NodeCache,
}

impl Bench {
    pub fn build(&mut self, calls: impl FnOnce(&mut Builder)) -> Option<GreenNode> {
        answer(|| {
            let mut builder = GreenNodeBuilder::with_cache(&mut self.cache);
            calls(&mut builder);
            builder.finish()
        })
    }

    pub fn root(&self, green: &GreenNode) -> SyntaxNode {
        SyntaxNode::new_root(green.clone())
    }

    pub fn child(&self, green: &GreenNode, index: usize) -> Option<GreenElement> {
        green.children().nth(index).map(|child| match child {
            NodeOrToken::Node(node) => NodeOrToken::Node(node.to_owned()),
            NodeOrToken::Token(token) => NodeOrToken::Token(token.to_owned()),
        })
    }

    pub fn replace_child(&mut self, green: &GreenNode, index: usize, new: GreenElement) -> Option<GreenNode> {
        answer(|| green.replace_child(index, new))
    }

    pub fn insert_child(&mut self, green: &GreenNode, index: usize, new: GreenElement) -> Option<GreenNode> {
        answer(|| green.insert_child(index, new))
    }

    pub fn remove_child(&mut self, green: &GreenNode, index: usize) -> Option<GreenNode> {
        answer(|| green.remove_child(index))
    }

    pub fn splice_children(
        &mut self,
        green: &GreenNode,
        (from, to): (usize, usize),
        news: Vec<GreenElement>,
    ) -> Option<GreenNode> {
        answer(|| green.splice_children(from..to, news))
    }

    /// None also where rowan's types leave no way to make the call.
    pub fn replace_with(&mut self, place: &Place, new: GreenElement) -> Option<GreenNode> {
        match (place, new) {
            (NodeOrToken::Node(node), NodeOrToken::Node(new)) => answer(|| node.replace_with(new)),
            (NodeOrToken::Token(token), NodeOrToken::Token(new)) => answer(|| token.replace_with(new)),
            _ => None,
        }
    }
}
