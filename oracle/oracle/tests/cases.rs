//! Document 01's section "Cases": every case, of both readings, with the paper's values.

mod support;

use oracle::{
    script::{Call, Step},
    sheet::SheetWriter,
};
use support::*;

#[test]
fn tree_t_has_four_records_and_the_walk_of_the_paper() {
    let mut both = with_tree_t();
    both.expect(Call::Element { number: 3 }, "node 1 5 4 1 3");
    let walk = [
        "E 1 0 5", "E 2 0 2", "L 2 0 2", "E 3 2 3", "L 3 2 3", "E 4 3 5", "L 4 3 5", "L 1 0 5",
    ];
    assert_eq!(both.walk(true, path(3, &[])), walk);
    assert_eq!(both.walk(false, path(3, &[])), ["E 1 0 5", "L 1 0 5"]);
}

#[test]
fn token_at_an_offset() {
    let mut both = with_tree_t();
    both.expect(token_at(2, 3, &[]), "token 2 0 2 1 0 token 3 2 3 1 1");
    both.expect(token_at(5, 3, &[]), "token 4 3 5 1 2");
    both.expect(token_at(6, 3, &[]), "refused 5");
}

#[test]
fn covering_an_empty_range_and_one_over_all_children() {
    let mut both = with_tree_t();
    both.expect(covering(2, 2, 3, &[]), "token 2 0 2 1 0");
    both.expect(covering(1, 4, 3, &[]), "node 1 0 5 0");
}

#[test]
fn an_empty_token_before_bs() {
    let mut both = Both::default();
    let tree = sheet().start(1).token(9, b"").token(2, b"BS").finish();
    both.run(tree, "root 2 store 3 2 2");
    both.expect(covering(0, 0, 2, &[]), "token 9 0 0 1 0");
    both.expect(token_at(0, 2, &[]), "token 2 0 2 1 1");
}

#[test]
fn the_chunks_of_a_slice() {
    let mut both = with_tree_t();
    both.expect(text_of(0, 3, &[]), "ok");
    both.expect(slice(1, 0, 1, 3), "ok");
    assert_eq!(both.chunks(1), ["chunk 1 53", "chunk 1 20", "chunk 0"]);
}

#[test]
fn next_token_looks_no_further_than_a_childless_node() {
    let mut both = Both::default();
    let tree = sheet()
        .start(1)
        .token(2, b"a")
        .start(3)
        .finish()
        .token(2, b"b")
        .finish();
    both.run(tree, "root 3 store 4 3 2");
    both.expect(step(Step::NextToken, 3, &[0]), "none");
    both.expect(step(Step::PrevToken, 3, &[2]), "none");
}

#[test]
fn replace_child_past_the_last_child_is_a_copy() {
    let mut both = with_tree_t();
    both.expect(replace_child(3, 3, 0), "element 4 store 5 6 5");
    both.expect(Call::Element { number: 4 }, "node 1 5 4 1 3");
    let spelled = both.walk(true, path(3, &[]));
    assert_eq!(both.walk(true, path(4, &[])), spelled);
    both.expect(same(path(3, &[]), path(4, &[])), "no");
    both.expect(same(path(3, &[1]), path(4, &[1])), "yes");
}

#[test]
fn open_nodes_are_dropped_by_finish() {
    let mut both = Both::default();
    both.run_events(
        sheet().start(1).start(2).finish(),
        &["e - 0 0 0", "e - 0 0 0", "e 0 1 0 0", "root 0 store 1 0 0"],
    );
    both.expect(step(Step::Here, 0, &[]), "node 2 0 0 0");
}

#[test]
fn a_childless_node_of_kind_0_is_shared_and_its_parent_is_not() {
    let mut both = Both::default();
    let over_zero = |it: SheetWriter| it.start(1).start(0).finish().finish();
    let tree = over_zero(over_zero(sheet().start(5))).finish();
    both.run_events(
        tree,
        &[
            "e - 0 0 0",
            "e - 0 0 0",
            "e - 0 0 0",
            "e 0 1 0 0",
            "e 1 2 1 0",
            "e - 2 1 0",
            "e - 2 1 0",
            "e 0 2 1 0",
            "e 2 3 2 0",
            "e 3 4 4 0",
            "root 3 store 4 4 0",
        ],
    );
    both.expect(Call::Mark { number: 0 }, "mark 0000000000000000");
    both.expect(Call::Mark { number: 1 }, "mark 0000000000000000");
}

/// A root over two nodes of kind 1, each over so many tokens of one spelling.
fn twice_over(tokens: usize) -> SheetWriter {
    let node = |mut sheet: SheetWriter| {
        sheet = sheet.start(1);
        for _ in 0..tokens {
            sheet = sheet.token(2, b"a");
        }
        sheet.finish()
    };
    node(node(sheet().start(5))).finish()
}

#[test]
fn three_tokens_under_a_node_are_shared_and_four_are_not() {
    let mut both = Both::default();
    both.run(twice_over(3), "root 2 store 3 5 1");
    both.expect(same(path(2, &[0]), path(2, &[1])), "no");
    both.expect(where_is(1, 2), "found 1 0");
    let mut both = Both::default();
    both.run(twice_over(4), "root 3 store 4 10 1");
    both.expect(where_is(1, 3), "found 1 0");
    both.expect(where_is(2, 3), "found 1 1");
}

#[test]
fn up_to_4096_events() {
    let wide = |tokens: usize| {
        let tokens = (0..tokens).fold(sheet().start(1), |it, _| it.token(2, b"a"));
        tokens.finish()
    };
    Both::default().run(wide(4_094), "root 1 store 2 4094 1");
    Both::default().run(wide(4_095), "refused 1 event 0 store 0 0 0");
}

#[test]
fn registers_up_to_63() {
    let wrap = |register| sheet().checkpoint(register).start_at(1, register).finish();
    Both::default().run(wrap(63), "root 0 store 1 0 0");
    Both::default().run(wrap(64), "refused 2 event 0 store 0 0 0");
    let start_at_64 = sheet().start_at(1, 64);
    Both::default().run(start_at_64, "refused 2 event 0 store 0 0 0");
}

#[test]
fn bytes_up_to_127() {
    let over = |byte| sheet().start(1).token(2, &[byte]).finish();
    Both::default().run(over(127), "root 1 store 2 1 1");
    Both::default().run(over(128), "refused 3 event 1 store 0 0 0");
}

#[test]
fn heights_up_to_64() {
    let tower = |nodes: usize| {
        let token = sheet().checkpoint(0).token(2, b"a");
        (0..nodes).fold(token, |it, _| it.start_at(1, 0).finish())
    };
    let mut both = Both::default();
    both.run(tower(64), "root 64 store 65 64 1");
    both.expect(Call::Element { number: 64 }, "node 1 1 65 64 1");
    let mut both = Both::default();
    both.run(tower(65), "refused 14 event 131 store 65 64 1");
}
