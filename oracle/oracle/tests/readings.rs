//! Sentences of document 01 that are easily misread, each decided by rowan.

mod support;

use oracle::{
    generate::collisions::{Token, ZERO_NODES, ZERO_TOKENS},
    script::{Call, Step},
    sheet::SheetWriter,
};
use support::*;

/// Kind 1 over 2 (3 over "a" of kind 10, "b" of kind 11), 4 over "c" of kind 12. The numbers are
/// those of the events: "a" 0, node 3 is 1, "b" 2, node 2 is 3, "c" 4, node 4 is 5, the root 6.
fn deep() -> Both {
    let mut both = Both::default();
    let two = sheet()
        .start(1)
        .start(2)
        .start(3)
        .token(10, b"a")
        .finish()
        .token(11, b"b");
    let tree = two.finish().start(4).token(12, b"c").finish().finish();
    both.run(tree, "root 6 store 7 6 3");
    both
}

#[test]
fn replace_with_at_the_root_answers_the_replacement() {
    let mut both = with_tree_t();
    both.run(sheet().start(1).finish(), "root 4 store 5 3 5");
    both.expect(replace_with(4, 3, &[]), "element 4 store 5 3 5");
    both.expect(replace_with(3, 3, &[]), "element 3 store 5 3 5");
}

#[test]
fn replace_with_makes_a_record_for_each_ancestor_even_if_nothing_changes() {
    let mut both = deep();
    both.expect(replace_with(0, 6, &[0, 0, 0]), "element 9 store 10 11 3");
    // The lowest ancestor's number is the smallest.
    both.expect(where_is(7, 9), "found 2 0 0");
    both.expect(where_is(8, 9), "found 1 0");
    both.expect(where_is(1, 9), "none");
    assert_eq!(both.walk(true, path(6, &[])), both_walk_of_deep());
    assert_eq!(both.walk(true, path(9, &[])), both_walk_of_deep());
}

fn both_walk_of_deep() -> [&'static str; 14] {
    [
        "E 1 0 3", "E 2 0 2", "E 3 0 1", "E 10 0 1", "L 10 0 1", "L 3 0 1", "E 11 1 2", "L 11 1 2",
        "L 2 0 2", "E 4 2 3", "E 12 2 3", "L 12 2 3", "L 4 2 3", "L 1 0 3",
    ]
}

#[test]
fn replace_child_takes_any_index() {
    let mut both = with_tree_t();
    both.expect(replace_child(3, u32::MAX, 3), "element 4 store 5 6 5");
    both.expect(Call::Element { number: 4 }, "node 1 5 4 1 3");
    both.expect(replace_child(3, 1, 3), "element 5 store 6 9 5");
    both.expect(Call::Element { number: 5 }, "node 1 9 7 2 3");
}

#[test]
fn the_ends_of_the_child_range() {
    let mut both = with_tree_t();
    both.expect(insert_child(3, 3, 0), "element 4 store 5 7 5");
    both.expect(splice(3, 3, 3, &[0]), "element 5 store 6 11 5");
    both.expect(splice(3, 1, 1, &[]), "element 6 store 7 14 5");
    both.expect(splice(3, 0, 3, &[]), "element 7 store 8 14 5");
    both.expect(remove_child(3, 2), "element 8 store 9 16 5");
    both.expect(step(Step::LastToken, 8, &[]), "token 3 2 3 1 1");
}

#[test]
fn an_event_does_not_find_what_an_edit_made() {
    let mut both = with_tree_t();
    both.expect(remove_child(3, 2), "element 4 store 5 5 5");
    let alike = || sheet().start(1).token(2, b"BS").token(3, b" ").finish();
    both.run(alike(), "root 5 store 6 7 5");
    both.run(alike(), "root 5 store 6 7 5");
}

const MARK_0: &str = "mark 0000000000000000";

#[test]
fn a_token_of_mark_0_is_shared_and_a_node_over_it_is_not() {
    for (kind, text) in ZERO_TOKENS {
        let mut both = Both::default();
        let tree = || sheet().start(1).token(kind, text).finish();
        both.run(tree(), "root 1 store 2 1 8");
        both.expect(Call::Mark { number: 0 }, MARK_0);
        both.expect(Call::Mark { number: 1 }, MARK_0);
        both.run(tree(), "root 2 store 3 2 8");
    }
}

#[test]
fn a_node_of_mark_0_with_a_child_is_shared_and_a_node_over_it_is_not() {
    for (kind, token) in ZERO_NODES {
        let mut both = Both::default();
        let zero = |it: SheetWriter| it.start(kind).token(token.0, token.1).finish();
        both.run(zero(sheet()), "root 1 store 2 1 5");
        both.expect(Call::Mark { number: 1 }, MARK_0);
        both.run(zero(sheet()), "root 1 store 2 1 5");
        both.run(zero(sheet().start(1)).finish(), "root 2 store 3 2 5");
        both.run(zero(sheet().start(1)).finish(), "root 3 store 4 3 5");
    }
}

#[test]
fn equal_marks_are_not_equal_elements() {
    let mut both = Both::default();
    let longer = |zero: Token| (zero.0, [zero.1, b"x"].concat());
    let (first, second) = (longer(ZERO_TOKENS[0]), longer(ZERO_TOKENS[1]));
    let over = |token: &(u16, Vec<u8>)| sheet().start(1).token(token.0, &token.1).finish();
    both.run(over(&first), "root 1 store 2 1 9");
    both.run(over(&second), "root 3 store 4 2 18");
    assert_eq!(
        both.ask(Call::Mark { number: 0 }),
        both.ask(Call::Mark { number: 2 })
    );
    assert_eq!(
        both.ask(Call::Mark { number: 1 }),
        both.ask(Call::Mark { number: 3 })
    );
    assert_ne!(both.ask(Call::Mark { number: 1 }), MARK_0);
    both.run(over(&first), "root 1 store 4 2 18");
    both.run(over(&second), "root 3 store 4 2 18");
}

#[test]
fn a_token_is_its_own_first_and_last_token() {
    let mut both = deep();
    both.expect(step(Step::FirstToken, 6, &[0, 1]), "token 11 1 2 2 0 1");
    both.expect(step(Step::LastToken, 6, &[0, 1]), "token 11 1 2 2 0 1");
    both.expect(step(Step::FirstToken, 6, &[]), "token 10 0 1 3 0 0 0");
    both.expect(step(Step::LastToken, 6, &[]), "token 12 2 3 2 1 0");
    both.expect(step(Step::NextToken, 6, &[0, 1]), "token 12 2 3 2 1 0");
    both.expect(step(Step::PrevToken, 6, &[0, 1]), "token 10 0 1 3 0 0 0");
}

#[test]
fn a_path_of_64_indexes_can_lead_to_a_token() {
    let mut both = Both::default();
    let token = sheet().checkpoint(0).token(2, b"a");
    let tower = (0..64).fold(token, |it, _| it.start_at(1, 0).finish());
    both.run(tower, "root 64 store 65 64 1");
    let indexes = " 0".repeat(64);
    both.expect(
        step(Step::Here, 64, &[0; 64]),
        &format!("token 2 0 1 64{indexes}"),
    );
    both.expect(
        step(Step::FirstToken, 64, &[]),
        &format!("token 2 0 1 64{indexes}"),
    );
    both.expect(step(Step::Here, 64, &[0; 65]), "refused 4");
}

#[test]
fn nothing_lies_beside_or_above_the_root() {
    let mut both = deep();
    for step_kind in [
        Step::Parent,
        Step::NextSibling,
        Step::PrevSibling,
        Step::NextSiblingOrToken,
        Step::PrevSiblingOrToken,
    ] {
        both.expect(step(step_kind, 6, &[]), "none");
    }
    both.expect(step(Step::PrevToken, 6, &[0, 0, 0]), "none");
    both.expect(step(Step::NextToken, 6, &[1, 0]), "none");
}

#[test]
fn siblings_are_nodes_only_or_with_tokens() {
    let mut both = deep();
    both.expect(step(Step::NextSibling, 6, &[0]), "node 4 2 3 1 1");
    both.expect(step(Step::PrevSibling, 6, &[1]), "node 2 0 2 1 0");
    both.expect(step(Step::NextSibling, 6, &[0, 0]), "none");
    both.expect(
        step(Step::NextSiblingOrToken, 6, &[0, 0]),
        "token 11 1 2 2 0 1",
    );
    both.expect(
        step(Step::PrevSiblingOrToken, 6, &[0, 1]),
        "node 3 0 1 2 0 0",
    );
    both.expect(step(Step::FirstChild, 6, &[0]), "node 3 0 1 2 0 0");
    both.expect(step(Step::LastChild, 6, &[0]), "node 3 0 1 2 0 0");
    both.expect(step(Step::LastChildOrToken, 6, &[0]), "token 11 1 2 2 0 1");
    both.expect(step(Step::FirstChild, 6, &[1]), "none");
}

#[test]
fn offsets_count_from_the_root() {
    let mut both = deep();
    both.expect(token_at(3, 6, &[1]), "token 12 2 3 2 1 0");
    both.expect(token_at(0, 6, &[1]), "refused 5");
    both.expect(covering(2, 3, 6, &[1]), "token 12 2 3 2 1 0");
    both.expect(child_at(2, 3, 6, &[1]), "token 12 2 3 2 1 0");
}

#[test]
fn token_at_offset_of_an_empty_node() {
    let mut both = Both::default();
    let empty = sheet()
        .start(1)
        .token(2, b"a")
        .start(3)
        .token(2, b"")
        .finish();
    both.run(empty.finish(), "root 3 store 4 3 1");
    both.expect(token_at(1, 3, &[1]), "none");
    both.expect(token_at(0, 3, &[1]), "refused 5");
    both.expect(token_at(2, 3, &[1]), "refused 5");
    both.expect(token_at(1, 3, &[]), "token 2 0 1 1 0");
}

#[test]
fn child_at_a_range_past_the_end() {
    let mut both = with_tree_t();
    both.expect(child_at(5, 6, 3, &[]), "none");
    both.expect(child_at(6, 6, 3, &[]), "none");
    both.expect(child_at(3, 6, 3, &[]), "none");
    both.expect(child_at(5, 5, 3, &[]), "token 4 3 5 1 2");
    both.expect(child_at(u32::MAX, u32::MAX, 3, &[]), "none");
    both.expect(child_at(7, 6, 3, &[]), "refused 5");
    both.expect(child_at(1, 3, 3, &[]), "none");
    both.expect(covering(5, 6, 3, &[]), "refused 5");
}

#[test]
fn an_empty_range_takes_the_last_child_that_ends_there() {
    let mut both = Both::default();
    let tree = sheet()
        .start(1)
        .token(2, b"")
        .token(3, b"")
        .token(4, b"BS")
        .token(5, b"");
    both.run(
        tree.start(6).finish().token(7, b"x").finish(),
        "root 6 store 7 6 3",
    );
    both.expect(covering(0, 0, 6, &[]), "token 3 0 0 1 1");
    both.expect(child_at(0, 0, 6, &[]), "token 3 0 0 1 1");
    both.expect(covering(1, 1, 6, &[]), "token 4 0 2 1 2");
    // The childless node is the last child that ends at 2.
    both.expect(covering(2, 2, 6, &[]), "node 6 2 2 1 4");
    both.expect(child_at(3, 3, 6, &[]), "token 7 2 3 1 5");
}

#[test]
fn same_element_compares_record_and_offset() {
    let mut both = Both::default();
    let empty_twice = sheet().start(1).token(2, b"").token(2, b"").finish();
    both.run(empty_twice, "root 1 store 2 2 0");
    both.expect(same(path(1, &[0]), path(1, &[1])), "yes");
    let under = sheet()
        .start(5)
        .start(1)
        .token(2, b"")
        .token(2, b"")
        .finish();
    both.run(under.token(2, b"").finish(), "root 2 store 3 4 0");
    both.expect(same(path(1, &[]), path(2, &[0])), "yes");
    both.expect(same(path(1, &[0]), path(2, &[1])), "yes");
    // Spelled alike is not enough.
    both.expect(replace_child(1, 9, 0), "element 3 store 4 6 0");
    both.expect(same(path(1, &[]), path(3, &[])), "no");
    both.expect(where_is(0, 2), "found 2 0 0");
    both.expect(where_is(2, 2), "found 0");
    both.expect(where_is(3, 2), "none");
}

#[test]
fn a_skip_leaves_the_parent_of_what_would_be_entered() {
    let mut both = deep();
    both.expect(walk_begin(true, 6, &[]), "ok");
    both.expect(WALK_NEXT, "enter node 1 0 3 0");
    both.expect(WALK_NEXT, "enter node 2 0 2 1 0");
    both.expect(WALK_NEXT, "enter node 3 0 1 2 0 0");
    both.expect(WALK_SKIP, "ok");
    both.expect(WALK_SKIP, "ok");
    both.expect(WALK_NEXT, "leave node 3 0 1 2 0 0");
    // Where an element was just left, its later siblings are skipped.
    both.expect(WALK_SKIP, "ok");
    both.expect(WALK_NEXT, "leave node 2 0 2 1 0");
    both.expect(WALK_NEXT, "enter node 4 2 3 1 1");
    both.expect(WALK_NEXT, "enter token 12 2 3 2 1 0");
    // Leave is coming: nothing changes.
    both.expect(WALK_SKIP, "ok");
    both.expect(WALK_NEXT, "leave token 12 2 3 2 1 0");
    both.expect(WALK_NEXT, "leave node 4 2 3 1 1");
    both.expect(WALK_NEXT, "leave node 1 0 3 0");
    for _ in 0..2 {
        both.expect(WALK_NEXT, "ended");
        both.expect(WALK_SKIP, "ok");
    }
    both.expect(WALK_NEXT, "ended");
}

#[test]
fn a_walk_below_the_root_ends_at_its_start() {
    let mut both = deep();
    both.expect(walk_begin(false, 6, &[1]), "ok");
    both.expect(WALK_NEXT, "enter node 4 2 3 1 1");
    both.expect(WALK_NEXT, "leave node 4 2 3 1 1");
    both.expect(WALK_NEXT, "ended");
}

#[test]
fn walks_and_texts_outlive_runs_and_edits() {
    let mut both = with_tree_t();
    both.expect(walk_begin(true, 3, &[]), "ok");
    both.expect(text_of(0, 3, &[]), "ok");
    both.expect(WALK_NEXT, "enter node 1 0 5 0");
    both.expect(Call::ChunkNext { slot: 0 }, "chunk 2 4253");
    both.run(sheet().start(1).finish(), "root 4 store 5 3 5");
    both.expect(remove_child(3, 0), "element 5 store 6 5 5");
    both.expect(WALK_NEXT, "enter token 2 0 2 1 0");
    both.expect(Call::ChunkNext { slot: 0 }, "chunk 1 20");
    both.expect(Call::ChunkBegin { slot: 0 }, "ok");
    both.expect(Call::ChunkNext { slot: 0 }, "chunk 2 4253");
    both.expect(store(9, 9, 9), "ok");
    both.expect(WALK_NEXT, "no walk");
    both.expect(Call::ChunkNext { slot: 0 }, "no text");
}

#[test]
fn chunks_are_of_the_tokens_of_the_node_whose_text_it_was() {
    let mut both = deep();
    both.expect(text_of(0, 6, &[]), "ok");
    both.expect(text_of(1, 6, &[0]), "ok");
    both.expect(slice(2, 0, 0, 2), "ok");
    both.expect(slice(3, 1, 0, 2), "ok");
    assert_eq!(both.chunks(2), ["chunk 1 61", "chunk 1 62", "chunk 0"]);
    assert_eq!(both.chunks(3), ["chunk 1 61", "chunk 1 62"]);
    both.expect(Call::TextEqual { left: 2, right: 3 }, "yes");
    both.expect(Call::TextEqual { left: 0, right: 3 }, "no");
    // A slice of a slice has the tokens of the root still.
    both.expect(slice(2, 2, 1, 2), "ok");
    assert_eq!(both.chunks(2), ["chunk 0", "chunk 1 62", "chunk 0"]);
}

#[test]
fn chunks_of_nothing() {
    let mut both = Both::default();
    both.run(sheet().start(1).finish(), "root 0 store 1 0 0");
    both.expect(text_of(0, 0, &[]), "ok");
    assert!(both.chunks(0).is_empty());
    both.expect(Call::TextLength { slot: 0 }, "length 0");
    let touching = sheet()
        .start(1)
        .token(2, b"a")
        .token(2, b"")
        .token(2, b"b")
        .finish();
    both.run(touching, "root 4 store 5 3 2");
    both.expect(text_of(0, 4, &[]), "ok");
    both.expect(slice(1, 0, 1, 1), "ok");
    assert_eq!(both.chunks(1), ["chunk 0", "chunk 0", "chunk 0"]);
    both.expect(slice(1, 0, 0, 0), "ok");
    assert_eq!(both.chunks(1), ["chunk 0"]);
}

#[test]
fn slices_count_from_the_slice_they_are_put_to() {
    let mut both = with_tree_t();
    both.expect(text_of(0, 3, &[]), "ok");
    both.expect(slice(1, 0, 1, 4), "ok");
    both.expect(slice(1, 1, 1, 3), "ok");
    both.expect(Call::TextLength { slot: 1 }, "length 2");
    both.expect(Call::TextCharAt { slot: 1, offset: 0 }, "char 32");
    both.expect(Call::TextCharAt { slot: 1, offset: 1 }, "char 49");
    both.expect(Call::TextCharAt { slot: 1, offset: 2 }, "none");
    let offset = u32::MAX;
    both.expect(Call::TextCharAt { slot: 1, offset }, "none");
}

#[test]
fn find_and_contains_are_of_one_character() {
    let mut both = with_tree_t();
    both.expect(text_of(0, 3, &[]), "ok");
    both.expect(slice(1, 0, 1, 5), "ok");
    for (byte, found) in [(b'S', "at 0"), (b'1', "at 2"), (b'2', "at 3")] {
        both.expect(Call::TextFind { slot: 1, byte }, found);
        both.expect(Call::TextContains { slot: 1, byte }, "yes");
    }
    for byte in [b'B', b'x', 0, 127, 128, 0xe9, 255] {
        both.expect(Call::TextFind { slot: 1, byte }, "none");
        both.expect(Call::TextContains { slot: 1, byte }, "no");
    }
}

#[test]
fn a_refused_run_leaves_its_records_to_be_found() {
    let mut both = Both::default();
    let refused = sheet().start(1).token(2, b"a").finish().finish();
    both.run(refused, "refused 11 event 3 store 2 1 1");
    both.run(
        sheet().start(1).token(2, b"a").finish(),
        "root 1 store 2 1 1",
    );
    // Open nodes, waiting elements and registers are gone with it.
    both.run(
        sheet().checkpoint(5).token(2, b"a"),
        "refused 13 event 2 store 2 1 1",
    );
    both.run(sheet().start_at(1, 5), "refused 12 event 0 store 2 1 1");
    // Also records that are not sharable, whether they wait or stand under an open node.
    let zero_under = sheet()
        .start(9)
        .start(1)
        .start(0)
        .finish()
        .finish()
        .start(9);
    both.run(zero_under.token(2, b"a"), "refused 13 event 7 store 4 2 1");
    both.expect(Call::Element { number: 3 }, "node 1 0 2 2 1");
    both.expect(insert_child(3, 1, 0), "element 4 store 5 4 1");
}

#[test]
fn a_stale_checkpoint_that_fits_again_is_accepted() {
    let mut both = Both::default();
    let stale = sheet()
        .start(1)
        .token(2, b"a")
        .token(2, b"b")
        .checkpoint(0)
        .finish();
    both.run(
        stale.token(2, b"c").start_at(3, 0).finish(),
        "refused 13 event 8 store 5 2 3",
    );
    both.expect(Call::Element { number: 4 }, "node 3 0 1 1 0");
}

#[test]
fn a_walk_counts_repeats() {
    let mut both = Both::default();
    let twice = sheet().start(1).token(2, b"a").token(2, b"a").finish();
    both.run(twice, "root 1 store 2 2 1");
    both.expect(Call::Element { number: 1 }, "node 1 2 3 1 2");
    assert_eq!(both.walk(true, path(1, &[])).len(), 6);
}
