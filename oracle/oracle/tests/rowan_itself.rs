//! What rowan does where the port refuses by 16: a skip before the walk's first event.

use oracle::adapter::caught;
use rowan::{
    cursor::{SyntaxElement, SyntaxNode},
    GreenNodeBuilder, SyntaxKind, WalkEvent,
};

/// Kind 1 over 2 (3 over a token of kind 10, a token of kind 11), 4 over a token of kind 12.
fn tree() -> SyntaxNode {
    let mut builder = GreenNodeBuilder::new();
    for kind in 1..=3 {
        builder.start_node(SyntaxKind(kind));
    }
    builder.token(SyntaxKind(10), "a");
    builder.finish_node();
    builder.token(SyntaxKind(11), "b");
    builder.finish_node();
    builder.start_node(SyntaxKind(4));
    builder.token(SyntaxKind(12), "c");
    builder.finish_node();
    builder.finish_node();
    SyntaxNode::new_root(builder.finish())
}

#[test]
fn from_the_root_the_next_event_panics() {
    let mut nodes = tree().preorder();
    nodes.skip_subtree();
    assert!(caught(|| nodes.next()).is_none());
    let mut elements = tree().preorder_with_tokens();
    elements.skip_subtree();
    assert!(caught(|| elements.next()).is_none());
}

#[test]
fn from_a_lower_node_the_walk_leaves_its_start() {
    let three = tree().first_child().and_then(|it| it.first_child());
    let three = three.expect("node 3 is there");
    assert_eq!(three.kind(), SyntaxKind(3));
    let mut walk = three.preorder_with_tokens();
    walk.skip_subtree();
    let shown = |event: WalkEvent<SyntaxElement>| match event {
        WalkEvent::Enter(it) => format!("E{}", it.kind().0),
        WalkEvent::Leave(it) => format!("L{}", it.kind().0),
    };
    let events: Vec<String> = walk.map(shown).collect();
    assert_eq!(events, ["L2", "E4", "E12", "L12", "L4", "L1"]);
}
