//! What handles and ranges offer beside the questions: equality, hashes, sizes, the functions of a range, a tree carried over.

use std::{collections::HashSet, mem::size_of};

use notes_tree::{GreenNode, GreenNodeBuilder, Store, SyntaxKind, SyntaxNode, SyntaxToken, TextRange};

fn kind(number: u16) -> SyntaxKind {
    SyntaxKind(number)
}

fn root<'s>(store: &'s Store<'s>, green: GreenNode) -> SyntaxNode<'s> {
    SyntaxNode::new_root(store, green).unwrap()
}

/// A handle is made and moved at every step, so its size is part of what a step costs (docs/PERFORMANCE.md).
#[test]
fn sizes() {
    assert_eq!((size_of::<SyntaxNode>(), size_of::<SyntaxToken>()), (64, 64));
}

/// Handles that are equal have one hash: those of one record at one offset, however they were reached. Two occurrences are not
/// equal, and neither are elements spelled alike under two roots at different offsets.
#[test]
fn equal_handles_have_one_hash() {
    let mut store = Store::new();
    let mut builder = GreenNodeBuilder::new();
    builder.start_node(kind(1));
    for text in ["", "", "A", "A"] {
        builder.token(kind(2), text);
    }
    builder.finish_node();
    let green = builder.finish(&mut store).unwrap();
    let root = root(&store, green);
    let tokens: Vec<_> = root.children_with_tokens().map(|child| child.into_token().unwrap()).collect();
    // The two empty tokens are one record at one offset; the two others stand at 0 and at 1.
    assert_eq!(tokens[0], tokens[1]);
    assert_ne!(tokens[2], tokens[3]);
    let set: HashSet<_> = tokens.iter().cloned().collect();
    assert_eq!(set.len(), 3);
    assert!(set.contains(&tokens[3].prev_token().unwrap()));
    let nodes: HashSet<_> = [root.clone(), tokens[0].parent().unwrap()].into_iter().collect();
    assert_eq!(nodes.len(), 1);
}

/// What the functions of a range say, by cases written out.
#[test]
fn ranges() {
    let range = TextRange::new(2, 5);
    assert_eq!((TextRange::at(2, 3), TextRange::up_to(2)), (range, TextRange::new(0, 2)));
    assert_eq!([1, 2, 4, 5].map(|offset| range.contains(offset)), [false, true, true, false]);
    assert_eq!([1, 2, 5, 6].map(|offset| range.contains_inclusive(offset)), [false, true, true, false]);
    assert!(range.contains_range(TextRange::empty(5)) && !range.contains_range(TextRange::new(4, 6)));
    assert_eq!(range.intersect(TextRange::new(5, 9)), Some(TextRange::empty(5)));
    assert_eq!(range.intersect(TextRange::new(6, 9)), None);
    assert_eq!(range.cover(TextRange::new(7, 9)), TextRange::new(2, 9));
    assert_eq!(&"BS 12"[TextRange::new(3, 5)], "12");
}

/// A tree carried over into a new store is spelled alike, and so is one that has empty tokens and childless nodes.
#[test]
fn carried_over() {
    let mut store = Store::new();
    let mut builder = GreenNodeBuilder::new();
    builder.start_node(kind(1));
    builder.token(kind(2), "");
    builder.start_node(kind(3));
    builder.finish_node();
    builder.token(kind(4), "12");
    builder.finish_node();
    let green = builder.finish(&mut store).unwrap();
    let mut fresh = Store::new();
    let carried = root(&store, green).to_builder().finish(&mut fresh).unwrap();
    let shape =
        |node: &SyntaxNode| -> Vec<String> { node.descendants_with_tokens().map(|it| format!("{it:?}")).collect() };
    assert_eq!(shape(&root(&fresh, carried)), shape(&root(&store, green)));
}
