//! Document 01's cases, with the values that the paper gives.

use std::iter;

use notes_tree::{
    BuildError, GreenElement, GreenNode, GreenNodeBuilder, GreenToken, NodeOrToken, Refusal, Store, SyntaxKind,
    SyntaxNode, SyntaxToken, TextRange, TokenAtOffset, WalkEvent,
};

fn kind(number: u16) -> SyntaxKind {
    SyntaxKind(number)
}

/// Kind 1 over "BS" (kind 2), " " (3), "12" (4): the paper's tree T.
fn tree_t(store: &mut Store) -> GreenNode {
    let mut builder = GreenNodeBuilder::new();
    builder.start_node(kind(1));
    builder.token(kind(2), "BS");
    builder.token(kind(3), " ");
    builder.token(kind(4), "12");
    builder.finish_node();
    builder.finish(store).unwrap()
}

fn root<'s>(store: &'s Store<'s>, green: GreenNode) -> SyntaxNode<'s> {
    SyntaxNode::new_root(store, green).unwrap()
}

fn chunks(text: &notes_tree::SyntaxText) -> Vec<String> {
    let mut chunks = Vec::new();
    text.for_each_chunk(|chunk| chunks.push(chunk.to_string()));
    chunks
}

#[test]
fn listing_of_t() {
    let mut store = Store::new();
    let green = tree_t(&mut store);
    assert_eq!(store.records(), 4);
    let record = store.record(green).unwrap();
    assert_eq!((record.size, record.text_len, record.height, record.children), (4, 5, 1, 3));
    let listed: Vec<String> = root(&store, green)
        .preorder_with_tokens()
        .map(|event| {
            let (letter, element) = match event {
                WalkEvent::Enter(element) => ('E', element),
                WalkEvent::Leave(element) => ('L', element),
            };
            let range = element.text_range();
            format!("{letter} {} {} {}", element.kind().0, range.start(), range.end())
        })
        .collect();
    assert_eq!(listed, ["E 1 0 5", "E 2 0 2", "L 2 0 2", "E 3 2 3", "L 3 2 3", "E 4 3 5", "L 4 3 5", "L 1 0 5"]);
}

#[test]
fn token_at_offset() {
    let mut store = Store::new();
    let green = tree_t(&mut store);
    let root = root(&store, green);
    match root.token_at_offset(2).unwrap() {
        TokenAtOffset::Between(left, right) => assert_eq!((left.text(), right.text()), ("BS", " ")),
        other => panic!("{other:?}"),
    }
    match root.token_at_offset(5).unwrap() {
        TokenAtOffset::Single(token) => assert_eq!((token.text(), token.index()), ("12", 2)),
        other => panic!("{other:?}"),
    }
    assert_eq!(root.token_at_offset(6).unwrap_err(), Refusal::Outside);
}

#[test]
fn covering_element() {
    let mut store = Store::new();
    let green = tree_t(&mut store);
    let root = root(&store, green);
    assert_eq!(root.covering_element(TextRange::new(2, 2)).unwrap().to_string(), "BS");
    assert_eq!(root.covering_element(TextRange::new(1, 4)).unwrap(), root.clone().into());
    assert_eq!(root.covering_element(TextRange::new(4, 6)).unwrap_err(), Refusal::Outside);
    assert_eq!(root.covering_element(TextRange::new(4, 3)).unwrap_err(), Refusal::Outside);
    assert!(root.child_or_token_at_range(TextRange::new(4, 6)).unwrap().is_none());
    assert_eq!(root.child_or_token_at_range(TextRange::new(3, 4)).unwrap().unwrap().to_string(), "12");
}

#[test]
fn empty_token_first() {
    let mut store = Store::new();
    let mut builder = GreenNodeBuilder::new();
    builder.start_node(kind(1));
    builder.token(kind(5), "");
    builder.token(kind(2), "BS");
    builder.finish_node();
    let green = builder.finish(&mut store).unwrap();
    let root = root(&store, green);
    assert_eq!(root.covering_element(TextRange::empty(0)).unwrap().kind(), kind(5));
    let at_0: Vec<_> = root.token_at_offset(0).unwrap().map(|token| token.text()).collect();
    assert_eq!(at_0, ["BS"]);
    assert_eq!(root.first_token().unwrap().text(), "");
}

#[test]
fn texts() {
    let mut store = Store::new();
    let green = tree_t(&mut store);
    let text = root(&store, green).text();
    assert_eq!((text.len(), text.to_string().as_str()), (5, "BS 12"));
    let slice = text.slice(1..3).unwrap();
    assert_eq!(chunks(&slice), ["S", " ", ""]);
    assert_eq!(chunks(&slice.slice(1..).unwrap()), ["", " ", ""]);
    assert!(slice == "S " && slice != "S" && slice != "S 1" && slice == text.slice(..3).unwrap().slice(1..).unwrap());
    assert_eq!((text.find_char('1'), slice.find_char('1'), slice.find_char(' ')), (Some(3), None, Some(1)));
    assert!(text.contains_char('B') && !slice.contains_char('B') && !text.contains_char('é'));
    assert_eq!((slice.char_at(0), slice.char_at(2), slice.char_at(9)), (Some('S'), None, None));
    for outside in [TextRange::new(0, 6), TextRange::new(3, 2)] {
        assert_eq!(text.slice(outside).unwrap_err(), Refusal::Outside);
    }
    assert_eq!(text.slice(..=u32::MAX).unwrap_err(), Refusal::Outside);

    let mut other = Store::new();
    let green = tree_t(&mut other);
    assert!(text == root(&other, green).text() && text != root(&other, green).text().slice(1..).unwrap());
}

#[test]
fn next_token_looks_no_further() {
    let mut store = Store::new();
    let mut builder = GreenNodeBuilder::new();
    builder.start_node(kind(1));
    builder.token(kind(2), "a");
    builder.start_node(kind(3));
    builder.finish_node();
    builder.token(kind(2), "b");
    builder.finish_node();
    let green = builder.finish(&mut store).unwrap();
    let root = root(&store, green);
    assert!(root.first_token().unwrap().next_token().is_none());
    assert!(root.last_token().unwrap().prev_token().is_none());
    assert_eq!(root.last_token().unwrap().text(), "b");
}

#[test]
fn edits() {
    let mut store = Store::new();
    let green = tree_t(&mut store);
    let copy = green.replace_child(&mut store, 3, green).unwrap();
    assert_eq!((copy.number(), store.records()), (4, 5));
    assert_eq!(root(&store, copy).text(), root(&store, green).text());

    let (blank, _) = green.child(&store, 1).unwrap();
    let longer = green.insert_child(&mut store, 3, blank).unwrap();
    assert_eq!(root(&store, longer).text(), "BS 12 ");
    let shorter = longer.remove_child(&mut store, 0).unwrap();
    assert_eq!(root(&store, shorter).text(), " 12 ");
    let children: Vec<(GreenElement, u32)> = green.children(&store).unwrap().collect();
    assert_eq!(
        children.iter().map(|(child, offset)| (child.number(), *offset)).collect::<Vec<_>>(),
        [(0, 0), (1, 2), (2, 3)]
    );
    let spliced = green.splice_children(&mut store, 0..=1, [children[2].0, children[1].0]).unwrap();
    assert_eq!(root(&store, spliced).text(), "12 12");

    assert_eq!(green.insert_child(&mut store, 4, blank).unwrap_err(), Refusal::Outside);
    assert_eq!(green.remove_child(&mut store, 3).unwrap_err(), Refusal::Outside);
    let backwards = std::ops::Range { start: 2, end: 1 };
    assert_eq!(green.splice_children(&mut store, backwards, []).unwrap_err(), Refusal::Outside);
    assert_eq!(green.splice_children(&mut store, ..=usize::MAX, []).unwrap_err(), Refusal::Outside);
    assert_eq!(green.child(&store, 3).unwrap_err(), Refusal::Outside);
}

#[test]
fn replace_with() {
    let mut store = Store::new();
    let mut builder = GreenNodeBuilder::new();
    builder.start_node(kind(9));
    for number in ["12", "13"] {
        builder.start_node(kind(1));
        builder.token(kind(4), number);
        builder.token(kind(3), "\n");
        builder.finish_node();
    }
    builder.finish_node();
    let green = builder.finish(&mut store).unwrap();
    let path = root(&store, green).first_token().unwrap().path();
    assert_eq!(path.indexes(), [0, 0]);
    let records = store.records();
    let token = GreenToken::new(&mut store, kind(4), "144").unwrap();
    assert_eq!(token.number() as usize, records);
    let changed = path.replace_with(&mut store, token).unwrap();
    // The token, then one record for each of its two ancestors.
    assert_eq!(store.records(), records + 3);
    assert_eq!(root(&store, changed).text(), "144\n13\n");
    assert_eq!(root(&store, green).text(), "12\n13\n");
    let second = |green| root(&store, green).last_child().unwrap();
    assert_eq!(second(changed).green(), second(green).green());
    assert_eq!(path.in_tree(changed).element(&store).unwrap().to_string(), "144");

    let other_kind = GreenToken::new(&mut store, kind(5), "144").unwrap();
    assert_eq!(path.replace_with(&mut store, other_kind).unwrap_err(), Refusal::OtherKind);
    assert_eq!(path.replace_with(&mut store, green).unwrap_err(), Refusal::OtherKind);
    let nowhere = notes_tree::SyntaxPath::new(green, &[0, 7]).unwrap();
    assert_eq!(nowhere.replace_with(&mut store, token).unwrap_err(), Refusal::NoSuchElement);
    assert_eq!(nowhere.element(&store).unwrap_err(), Refusal::NoSuchElement);
    assert_eq!(notes_tree::SyntaxPath::new(green, &[0; 65]).unwrap_err(), Refusal::NoSuchElement);
}

#[test]
fn sharing() {
    let mut store = Store::new();
    // Kind 1 over a childless node of kind 0, twice: the inner one is shared, the outer one not.
    let mut builder = GreenNodeBuilder::new();
    builder.start_node(kind(9));
    for _ in 0..2 {
        builder.start_node(kind(1));
        builder.start_node(kind(0));
        builder.finish_node();
        builder.finish_node();
    }
    builder.finish_node();
    let run = builder.run(&mut store);
    let numbers: Vec<Option<u32>> = run.yields.iter().map(|it| it.map(|element| element.number())).collect();
    let (inner, first, second, top) = (Some(0), Some(1), Some(2), Some(3));
    assert_eq!(numbers, [None, None, None, inner, first, None, None, inner, second, top]);
    assert_eq!(run.root.unwrap().number(), 3);
}

#[test]
fn three_children_are_shared_and_four_are_not() {
    for (count, is_shared) in [(3, true), (4, false)] {
        let mut store = Store::new();
        let mut builder = GreenNodeBuilder::new();
        builder.start_node(kind(9));
        for _ in 0..2 {
            builder.start_node(kind(1));
            (0..count).for_each(|_| builder.token(kind(2), "x"));
            builder.finish_node();
        }
        builder.finish_node();
        let green = builder.finish(&mut store).unwrap();
        let both: Vec<GreenNode> = root(&store, green).children().map(|node| node.green()).collect();
        assert_eq!(both[0] == both[1], is_shared);
    }
}

#[test]
fn open_nodes_are_dropped() {
    let mut store = Store::new();
    let mut builder = GreenNodeBuilder::new();
    builder.start_node(kind(1));
    builder.start_node(kind(2));
    builder.finish_node();
    let green = builder.finish(&mut store).unwrap();
    assert_eq!(green.kind(&store), Ok(kind(2)));
}

#[test]
fn walks_and_skips() {
    let mut store = Store::new();
    let mut builder = GreenNodeBuilder::new();
    builder.start_node(kind(1));
    for number in 2..5 {
        builder.start_node(kind(number));
        builder.token(kind(8), "a");
        builder.token(kind(9), "b");
        builder.finish_node();
    }
    builder.finish_node();
    let green = builder.finish(&mut store).unwrap();
    let root = root(&store, green);

    let mut walk = root.preorder_with_tokens();
    assert_eq!(walk.skip_subtree(), Err(Refusal::SkipTooEarly));
    let mut kinds = Vec::new();
    let mut next = |walk: &mut notes_tree::PreorderWithTokens| match walk.next() {
        Some(WalkEvent::Enter(element)) => kinds.push(element.kind().0 as i32),
        Some(WalkEvent::Leave(element)) => kinds.push(-(element.kind().0 as i32)),
        None => kinds.push(0),
    };
    next(&mut walk);
    next(&mut walk);
    next(&mut walk);
    // After Enter of a token its Leave comes, which stays.
    walk.skip_subtree().unwrap();
    next(&mut walk);
    // After its Leave the later sibling is passed over.
    walk.skip_subtree().unwrap();
    walk.skip_subtree().unwrap();
    next(&mut walk);
    next(&mut walk);
    // The second node without its tokens.
    walk.skip_subtree().unwrap();
    (0..8).for_each(|_| next(&mut walk));
    walk.skip_subtree().unwrap();
    next(&mut walk);
    next(&mut walk);
    assert_eq!(kinds, [1, 2, 8, -8, -2, 3, -3, 4, 8, -8, 9, -9, -4, -1, 0, 0]);
    let nodes: Vec<u16> = root.descendants().map(|node| node.kind().0).collect();
    assert_eq!(nodes, [1, 2, 3, 4]);
    let below: Vec<String> = root.first_child().unwrap().descendants_with_tokens().map(|it| it.to_string()).collect();
    assert_eq!(below, ["ab", "a", "b"]);
}

#[test]
fn walk_longer_than_one_call() {
    let mut store = Store::new();
    let mut builder = GreenNodeBuilder::new();
    builder.start_node(kind(1));
    for _ in 0..100 {
        builder.start_node(kind(2));
        builder.token(kind(3), "x");
        builder.finish_node();
    }
    builder.finish_node();
    let green = builder.finish(&mut store).unwrap();
    let root = root(&store, green);
    // Twice the size: 1 + 100 * 2 elements.
    assert_eq!(root.preorder_with_tokens().count(), 402);
    assert_eq!(root.preorder().count(), 202);
    let starts: Vec<u32> = root.children().map(|node| node.text_range().start()).collect();
    assert_eq!(starts, (0..100).collect::<Vec<u32>>());
    let entered = root.preorder().filter_map(|event| match event {
        WalkEvent::Enter(node) => Some(node),
        WalkEvent::Leave(_) => None,
    });
    assert!(entered.skip(1).eq(root.children()));
}

#[test]
fn handles() {
    let mut store = Store::new();
    let green = tree_t(&mut store);
    let root = root(&store, green);
    let blank = root.first_token().unwrap().next_token().unwrap();
    assert_eq!(
        (blank.text(), blank.kind(), blank.text_range(), blank.index()),
        (" ", kind(3), TextRange::new(2, 3), 1)
    );
    assert_eq!(blank.parent().unwrap(), root);
    assert_eq!(blank.ancestors().count(), 1);
    assert_eq!(blank.tree_top(), root);
    assert_eq!(blank, root.last_token().unwrap().prev_token().unwrap());
    assert_ne!(blank, root.last_token().unwrap());
    assert!(root.parent().is_none() && root.first_child().is_none() && root.next_sibling_or_token().is_none());
    let texts: Vec<String> = root.children_with_tokens().map(|child| child.to_string()).collect();
    assert_eq!(texts, ["BS", " ", "12"]);
    let back = blank.siblings_with_tokens(notes_tree::Direction::Prev);
    assert_eq!(back.map(|it| it.index()).collect::<Vec<_>>(), [1, 0]);
    assert_eq!(root.where_is(blank.green()).unwrap().unwrap().indexes(), [1]);
    assert_eq!(format!("{root:?}"), "SyntaxNode { kind: SyntaxKind(1), text_range: 0..5 }");
    assert_eq!(blank.parent_ancestors().count(), 1);
}

/// Handles keep short paths and long ones in different ways; 64 is the highest tree.
#[test]
fn paths_of_every_depth() {
    const DEEP: usize = 64;
    let mut store = Store::new();
    let mut builder = GreenNodeBuilder::new();
    let text = |level: usize| level.to_string();
    for level in 0..DEEP {
        builder.start_node(kind(1));
        builder.token(kind(2), &text(level));
    }
    for _ in 0..DEEP {
        builder.token(kind(3), "end");
        builder.finish_node();
    }
    let green = builder.finish(&mut store).unwrap();
    let root = root(&store, green);
    let mut token = root.first_token().unwrap();
    for level in 0..DEEP {
        assert_eq!((token.text(), token.index()), (text(level).as_str(), 0));
        let indexes: Vec<u32> = [1].repeat(level).into_iter().chain([0]).collect();
        assert_eq!(token.path().indexes(), indexes);
        assert_eq!(token.path().element(&store).unwrap(), NodeOrToken::Token(token.clone()));
        assert_eq!(token.ancestors().count(), level + 1);
        token = token.next_token().unwrap();
    }
    assert_eq!(token.ancestors().count(), DEEP);
    assert_eq!(iter::successors(Some(token), SyntaxToken::next_token).count(), DEEP);
    let walked: Vec<String> = root.descendants_with_tokens().map(|it| it.path().indexes().len().to_string()).collect();
    let down = (0..DEEP).flat_map(|level| [level, level + 1]);
    let up = (1..=DEEP).rev();
    assert_eq!(walked, down.chain(up).map(text).collect::<Vec<_>>());
    // The lowest number, after ten of one digit and 53 of two.
    let lowest = root.covering_element(TextRange::new(116, 118)).unwrap();
    assert_eq!((lowest.to_string(), lowest.ancestors().count()), (text(DEEP - 1), DEEP));
}

#[test]
fn elements_of_another_store_are_refused() {
    let (mut one, mut two) = (Store::new(), Store::new());
    let green = tree_t(&mut one);
    tree_t(&mut two);
    assert_eq!(SyntaxNode::new_root(&two, green).unwrap_err(), Refusal::NoSuchElement);
    assert_eq!(green.remove_child(&mut two, 0).unwrap_err(), Refusal::NoSuchElement);
    assert_eq!(two.record(green).unwrap_err(), Refusal::NoSuchElement);
    assert_eq!(two.element(4).unwrap_err(), Refusal::NoSuchElement);
    assert!(matches!(two.element(3), Ok(NodeOrToken::Node(_))) && matches!(two.element(0), Ok(NodeOrToken::Token(_))));
}

fn refused(builder: GreenNodeBuilder) -> (Refusal, usize, usize) {
    match builder.finish(&mut Store::new()).unwrap_err() {
        BuildError::Refused { refusal, event, call } => (refusal, event, call),
        other => panic!("{other}"),
    }
}

#[test]
fn refused_events() {
    assert_eq!(refused(GreenNodeBuilder::new()), (Refusal::Unfinished, 0, 0));

    let mut builder = GreenNodeBuilder::new();
    builder.token(kind(1), "a");
    assert_eq!(refused(builder.clone()), (Refusal::Unfinished, 1, 1));
    builder.finish_node();
    builder.token(kind(1), "\u{80}");
    assert_eq!(refused(builder), (Refusal::NothingOpen, 1, 1));

    let mut builder = GreenNodeBuilder::new();
    builder.token(kind(1), "\u{7f}");
    builder.token(kind(1), "\u{80}");
    assert_eq!(refused(builder), (Refusal::Text, 1, 1));

    // Before the open node: the checkpoint is event 0, so the start there is event 3 and call 2.
    let mut builder = GreenNodeBuilder::new();
    let checkpoint = builder.checkpoint();
    builder.token(kind(1), "a");
    builder.start_node(kind(2));
    builder.start_node_at(checkpoint, kind(3));
    assert_eq!(refused(builder), (Refusal::UnfitCheckpoint, 3, 2));

    // Past what waits: by a checkpoint of another builder, and by one that a node has closed over.
    let mut other = GreenNodeBuilder::new();
    other.token(kind(1), "a");
    let mut builder = GreenNodeBuilder::new();
    builder.start_node_at(other.checkpoint(), kind(3));
    assert_eq!(refused(builder), (Refusal::UnfitCheckpoint, 0, 0));
    let mut builder = GreenNodeBuilder::new();
    builder.start_node(kind(2));
    builder.token(kind(1), "a");
    builder.token(kind(1), "b");
    let checkpoint = builder.checkpoint();
    builder.finish_node();
    builder.start_node_at(checkpoint, kind(3));
    // The checkpoint's own event stands before the finish.
    assert_eq!(refused(builder), (Refusal::UnfitCheckpoint, 5, 4));
}

#[test]
fn events_before_a_refused_one_stay() {
    let mut store = Store::new();
    let mut builder = GreenNodeBuilder::new();
    builder.token(kind(1), "a");
    builder.finish_node();
    assert!(builder.finish(&mut store).is_err());
    assert_eq!((store.records(), store.text_bytes(), store.child_places()), (1, 1, 0));
    // A token that is there is found again.
    assert_eq!(GreenToken::new(&mut store, kind(1), "a").unwrap().number(), 0);
    assert_eq!(GreenToken::new(&mut store, kind(1), "é").unwrap_err(), Refusal::Text);
    assert_eq!(store.records(), 1);
}

#[test]
fn limits() {
    // 4,096 events, and one more.
    for (tokens, outcome) in [(4_094, None), (4_095, Some(Refusal::Sheet))] {
        let mut builder = GreenNodeBuilder::new();
        builder.start_node(kind(1));
        (0..tokens).for_each(|_| builder.token(kind(2), "x"));
        builder.finish_node();
        let root = builder.finish(&mut Store::new());
        assert_eq!(root.err().and_then(|error| error.refusal()), outcome);
    }
    // 65,536 bytes of text, and one more.
    for (length, outcome) in [(65_536, None), (65_537, Some(Refusal::Sheet))] {
        let mut builder = GreenNodeBuilder::new();
        builder.start_node(kind(1));
        builder.token(kind(2), &"x".repeat(length));
        builder.finish_node();
        let root = builder.finish(&mut Store::new());
        assert_eq!(root.err().and_then(|error| error.refusal()), outcome);
    }
    // Height 64, and one more.
    let mut store = Store::new();
    let mut builder = GreenNodeBuilder::new();
    (0..64).for_each(|_| builder.start_node(kind(1)));
    (0..64).for_each(|_| builder.finish_node());
    let green = builder.finish(&mut store).unwrap();
    assert_eq!(store.record(green).unwrap().height, 64);
    let mut deepest = root(&store, green);
    while let Some(child) = deepest.first_child() {
        deepest = child;
    }
    assert_eq!(deepest.path().indexes().len(), 63);
    assert_eq!(deepest.preorder().count(), 2);
    let higher = green.insert_child(&mut store, 1, green).unwrap_err();
    assert_eq!(higher, Refusal::TooLarge);
    let mut builder = GreenNodeBuilder::new();
    (0..65).for_each(|_| builder.start_node(kind(1)));
    assert_eq!(refused(builder), (Refusal::TooLarge, 64, 64));
}

#[test]
fn a_full_store() {
    let (mut records, mut children, mut text) = (vec![7; 8 * 4], vec![7; 3], vec![7; 5]);
    let mut store = Store::with_buffers(&mut records, &mut children, &mut text);
    let green = tree_t(&mut store);
    assert_eq!(root(&store, green).text(), "BS 12");
    // All of it again is found; one record more has no place.
    assert_eq!(tree_t(&mut store), green);
    assert_eq!(GreenToken::new(&mut store, kind(2), "").unwrap_err(), Refusal::Full);
    assert_eq!(green.remove_child(&mut store, 0).unwrap_err(), Refusal::Full);
    assert_eq!(root(&store, green).text(), "BS 12");
    let empty = Store::with_buffers(&mut [], &mut [], &mut []).records();
    assert_eq!(empty, 0);
}

/// As many checkpoints as asked for, all used after the last was taken, from the last to the first.
fn checkpoints(count: usize) -> GreenNodeBuilder {
    let mut builder = GreenNodeBuilder::new();
    let mut taken = Vec::new();
    for _ in 0..count {
        taken.push(builder.checkpoint());
        builder.token(kind(2), "x");
    }
    for checkpoint in taken.into_iter().rev() {
        builder.start_node_at(checkpoint, kind(1));
        builder.finish_node();
    }
    builder
}

#[test]
fn sixty_four_checkpoints_at_once() {
    let mut store = Store::new();
    let green = checkpoints(64).finish(&mut store).unwrap();
    assert_eq!(store.record(green).unwrap().height, 64);
    let records = store.records();
    assert_eq!(checkpoints(65).finish(&mut store).unwrap_err(), BuildError::TooManyCheckpoints);
    assert_eq!(store.records(), records);
}

#[test]
fn checkpoints_of_equal_length_share_a_register() {
    let mut builder = GreenNodeBuilder::new();
    builder.start_node(kind(1));
    // Two hundred, never more than one of them needed at a time, two of each length.
    for _ in 0..100 {
        let (one, same) = (builder.checkpoint(), builder.checkpoint());
        assert_eq!(one, same);
        builder.token(kind(2), "x");
        builder.start_node_at(one, kind(3));
        builder.finish_node();
        builder.start_node_at(same, kind(4));
        builder.finish_node();
    }
    builder.finish_node();
    let sheet = builder.sheet().unwrap();
    // Each round: a checkpoint, a token, two starts and two finishes.
    assert_eq!(sheet.events(), 2 + 100 * 6);
    let mut store = Store::new();
    let green = builder.finish(&mut store).unwrap();
    assert_eq!(store.record(green).unwrap().size, 1 + 100 * 3);
    // Shared: the token, kind 3 over it and kind 4 over that; and the root.
    assert_eq!(store.records(), 4);
}

#[test]
fn a_sheet_is_as_its_paper_says() {
    let mut builder = GreenNodeBuilder::new();
    builder.start_node(kind(1));
    builder.token(kind(2), "BS");
    builder.token(kind(3), " ");
    builder.token(kind(4), "12");
    builder.finish_node();
    let sheet = builder.sheet().unwrap();
    let words: [u32; 12] = [5, 5, 0x2_0001, 0x1_0002, 0x1_0003, 0x1_0004, 0x3_0000, 0, 2, 1, 2, 0];
    assert_eq!(sheet.to_bytes(), words.map(u32::to_le_bytes).concat());
    assert_eq!(sheet.text(), b"BS 12");
}

#[test]
fn each_refusal_has_a_sentence() {
    let refusals = [
        (Refusal::Sheet, 1),
        (Refusal::Event, 2),
        (Refusal::Text, 3),
        (Refusal::NoSuchElement, 4),
        (Refusal::Outside, 5),
        (Refusal::OtherKind, 6),
        (Refusal::NothingOpen, 11),
        (Refusal::UnfitCheckpoint, 12),
        (Refusal::Unfinished, 13),
        (Refusal::TooLarge, 14),
        (Refusal::Full, 15),
        (Refusal::SkipTooEarly, 16),
    ];
    for (refusal, number) in refusals {
        let error: Box<dyn std::error::Error> = refusal.into();
        assert_eq!(refusal.number(), number);
        assert!(error.to_string().ends_with(&format!("(refusal {number})")));
    }
}
