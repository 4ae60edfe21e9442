//! Every refusal, at its limits and in its order.

mod support;

use oracle::{
    script::{Call, Step},
    sheet::{Event, Sheet, SheetWriter},
};
use support::*;

/// A run of a sheet with these event words and a text.
fn words(events: &[(u32, u32)], text: &[u8]) -> SheetWriter {
    SheetWriter {
        events: events.to_vec(),
        text: text.to_vec(),
    }
}

const START: (u32, u32) = (0x2_0001, 0);
const FINISH: (u32, u32) = (0x3_0000, 0);

#[test]
fn refusal_1_broken_sheets() {
    let (sheet, text) = tree_t().files();
    let refused = "refused 1 event 0 store 0 0 0";
    let mut both = Both::default();
    both.expect(run_files(Vec::new(), Vec::new()), refused);
    both.expect(run_files(sheet[..7].to_vec(), text.clone()), refused);
    both.expect(run_files(sheet[..47].to_vec(), text.clone()), refused);
    both.expect(
        run_files([&sheet[..], &[0]].concat(), text.clone()),
        refused,
    );
    both.expect(run_files(sheet.clone(), b"BS 1".to_vec()), refused);
    both.expect(run_files(sheet.clone(), b"BS 123".to_vec()), refused);
    let mut huge = sheet;
    huge[..4].copy_from_slice(&0x2000_0005u32.to_le_bytes());
    both.expect(run_files(huge, text), refused);
}

#[test]
fn refusal_1_long_texts() {
    let over = |length: usize| words(&[(0x1_0002, length as u32)], &vec![b'a'; length]);
    Both::default().run(over(65_536), "refused 13 event 1 store 1 0 65536");
    Both::default().run(over(65_537), "refused 1 event 0 store 0 0 0");
}

#[test]
fn refusal_2_bad_events() {
    let bad = [
        (0x0_0000, 0),
        (0x6_0000, 0),
        (0xffff_0000, 0),
        (0x2_0001, 1),
        (0x3_0001, 0),
        (0x3_0000, 1),
        (0x4_0001, 0),
        (0x4_0000, 64),
        (0x5_0001, 64),
        (0x5_0001, u32::MAX),
    ];
    for event in bad {
        let mut both = Both::default();
        both.run(words(&[START, event], b""), "refused 2 event 1 store 0 0 0");
    }
}

#[test]
fn refusal_2_comes_before_11_and_12() {
    let mut both = Both::default();
    both.run(
        words(&[(0x3_0001, 0)], b""),
        "refused 2 event 0 store 0 0 0",
    );
    both.run(
        words(&[(0x5_0001, 64)], b""),
        "refused 2 event 0 store 0 0 0",
    );
}

#[test]
fn the_first_refused_event_ends_the_run() {
    let mut both = Both::default();
    let events = [(0x1_0002, 1), FINISH, (0x9_0000, 0)];
    both.run(words(&events, b"a"), "refused 11 event 1 store 1 0 1");
}

#[test]
fn refusal_3_text() {
    let mut both = Both::default();
    let token = (0x1_0002, 2);
    both.run(
        words(&[START, token, FINISH], b"a"),
        "refused 3 event 1 store 0 0 0",
    );
    both.run(
        words(&[START, token, FINISH], b"a\x80"),
        "refused 3 event 1 store 0 0 0",
    );
    both.run(
        words(&[START, token, FINISH], b"abc"),
        "refused 3 event 3 store 2 1 2",
    );
    let longest = (0x1_0002, u32::MAX);
    both.run(
        words(&[START, longest], b"a"),
        "refused 3 event 1 store 2 1 2",
    );
}

#[test]
fn refusal_3_comes_before_13_at_the_end() {
    let mut both = Both::default();
    both.run(words(&[], b""), "refused 13 event 0 store 0 0 0");
    both.run(words(&[], b"a"), "refused 3 event 0 store 0 0 0");
    // A byte over 127 counts when a token takes it, and left over it is refusal 3 all the same.
    both.run(
        words(&[START, FINISH], b"\xff"),
        "refused 3 event 2 store 1 0 0",
    );
}

#[test]
fn refusal_4_paths() {
    let mut both = with_tree_t();
    for step_kind in Step::ALL {
        both.expect(step(step_kind, 4, &[]), "refused 4");
        both.expect(step(step_kind, 0, &[]), "refused 4");
        both.expect(step(step_kind, 3, &[3]), "refused 4");
        both.expect(step(step_kind, 3, &[0, 0]), "refused 4");
        both.expect(step(step_kind, 3, &[u32::MAX]), "refused 4");
        both.expect(step(step_kind, 3, &[0; 65]), "refused 4");
    }
}

#[test]
fn refusal_4_a_token_where_a_node_is_wanted() {
    let mut both = with_tree_t();
    let nodes_only = [
        Step::FirstChild,
        Step::LastChild,
        Step::FirstChildOrToken,
        Step::LastChildOrToken,
        Step::NextSibling,
        Step::PrevSibling,
    ];
    for step_kind in nodes_only {
        both.expect(step(step_kind, 3, &[0]), "refused 4");
    }
    // Before any refusal 5.
    both.expect(token_at(9, 3, &[0]), "refused 4");
    both.expect(child_at(2, 1, 3, &[0]), "refused 4");
    both.expect(covering(2, 1, 3, &[0]), "refused 4");
    both.expect(walk_begin(true, 3, &[0]), "refused 4");
    both.expect(text_of(0, 3, &[0]), "refused 4");
    both.expect(replace_child(0, 0, 1), "refused 4 store 4 3 5");
    both.expect(insert_child(0, 9, 1), "refused 4 store 4 3 5");
    both.expect(remove_child(0, 9), "refused 4 store 4 3 5");
    both.expect(splice(0, 2, 1, &[]), "refused 4 store 4 3 5");
}

#[test]
fn refusal_4_a_token_needed_and_a_node_named() {
    let mut both = with_tree_t();
    both.expect(step(Step::NextToken, 3, &[]), "refused 4");
    both.expect(step(Step::PrevToken, 3, &[]), "refused 4");
}

#[test]
fn refusal_4_absent_numbers() {
    let mut both = with_tree_t();
    both.expect(replace_child(3, 9, 4), "refused 4 store 4 3 5");
    both.expect(insert_child(3, 9, 4), "refused 4 store 4 3 5");
    both.expect(splice(3, 2, 1, &[0, 4]), "refused 4 store 4 3 5");
    both.expect(replace_with(4, 3, &[]), "refused 4 store 4 3 5");
    both.expect(replace_with(0, 3, &[3]), "refused 4 store 4 3 5");
    both.expect(replace_with(0, 0, &[]), "refused 4 store 4 3 5");
    both.expect(where_is(4, 3), "refused 4");
    both.expect(where_is(0, 4), "refused 4");
    both.expect(where_is(0, 0), "refused 4");
    both.expect(same(path(3, &[]), path(4, &[])), "refused 4");
    both.expect(Call::Element { number: 4 }, "refused 4");
    both.expect(Call::Mark { number: 4 }, "refused 4");
}

#[test]
fn refusal_4_empties_a_slot() {
    let mut both = with_tree_t();
    both.expect(walk_begin(true, 3, &[]), "ok");
    both.expect(walk_begin(true, 3, &[3]), "refused 4");
    both.expect(WALK_NEXT, "no walk");
    both.expect(WALK_SKIP, "no walk");
    both.expect(text_of(0, 3, &[]), "ok");
    both.expect(text_of(0, 3, &[3]), "refused 4");
    both.expect(Call::TextLength { slot: 0 }, "no text");
}

#[test]
fn refusal_5_offsets_and_ranges() {
    let mut both = Both::default();
    let tree = sheet()
        .start(1)
        .token(2, b"ab")
        .start(3)
        .token(4, b"cd")
        .finish();
    both.run(tree.token(2, b"ef").finish(), "root 4 store 5 4 6");
    both.expect(token_at(1, 4, &[1]), "refused 5");
    both.expect(token_at(5, 4, &[1]), "refused 5");
    both.expect(child_at(1, 3, 4, &[1]), "refused 5");
    both.expect(child_at(9, 8, 4, &[1]), "refused 5");
    both.expect(child_at(3, 2, 4, &[]), "refused 5");
    both.expect(covering(1, 3, 4, &[1]), "refused 5");
    both.expect(covering(3, 5, 4, &[1]), "refused 5");
    both.expect(covering(3, 2, 4, &[1]), "refused 5");
    both.expect(covering(0, u32::MAX, 4, &[]), "refused 5");
}

#[test]
fn refusal_5_children() {
    let mut both = with_tree_t();
    both.expect(insert_child(3, 4, 0), "refused 5 store 4 3 5");
    both.expect(remove_child(3, 3), "refused 5 store 4 3 5");
    both.expect(remove_child(3, u32::MAX), "refused 5 store 4 3 5");
    both.expect(splice(3, 2, 1, &[]), "refused 5 store 4 3 5");
    both.expect(splice(3, 4, 3, &[0]), "refused 5 store 4 3 5");
    both.expect(splice(3, 3, 4, &[]), "refused 5 store 4 3 5");
}

#[test]
fn refusal_5_slices() {
    let mut both = with_tree_t();
    both.expect(text_of(0, 3, &[]), "ok");
    for (start, end) in [(0, 6), (6, 6), (3, 2), (0, u32::MAX), (u32::MAX, u32::MAX)] {
        both.expect(slice(1, 0, 0, 5), "ok");
        both.expect(slice(1, 0, start, end), "refused 5");
        both.expect(Call::TextLength { slot: 1 }, "no text");
    }
    // Past 32 bits from the start of the root.
    for (start, end) in [
        (u32::MAX, u32::MAX),
        (u32::MAX - 1, u32::MAX),
        (1, u32::MAX),
    ] {
        both.expect(slice(1, 0, 1, 3), "ok");
        both.expect(slice(2, 1, start, end), "refused 5");
    }
    both.expect(slice(1, 0, 1, 3), "ok");
    both.expect(slice(1, 1, 0, 3), "refused 5");
    both.expect(slice(2, 1, 0, 0), "no text");
}

#[test]
fn refusal_6_unlike_replacements() {
    let mut both = with_tree_t();
    both.run(sheet().start(2).finish(), "root 4 store 5 3 5");
    both.expect(replace_with(1, 3, &[0]), "refused 6 store 5 3 5");
    both.expect(replace_with(4, 3, &[]), "refused 6 store 5 3 5");
    // A node of the kind for a token, and a token for a node: 6 and not 4.
    both.expect(replace_with(4, 3, &[0]), "refused 6 store 5 3 5");
    both.expect(replace_with(0, 4, &[]), "refused 6 store 5 3 5");
}

#[test]
fn refusals_11_12_and_13() {
    let mut both = Both::default();
    both.run(sheet().finish(), "refused 11 event 0 store 0 0 0");
    both.run(
        sheet().start(1).finish().finish(),
        "refused 11 event 2 store 1 0 0",
    );
    both.run(sheet().start_at(1, 0), "refused 12 event 0 store 1 0 0");
    // Below the open node's start; and past the waiting list, which a finish has shortened.
    let below = sheet().checkpoint(0).token(2, b"a").start(1).start_at(1, 0);
    both.run(below, "refused 12 event 3 store 2 0 1");
    let past = sheet()
        .start(1)
        .token(2, b"a")
        .token(2, b"a")
        .checkpoint(0)
        .finish();
    both.run(past.start_at(1, 0), "refused 12 event 5 store 3 2 1");
    both.run(sheet().token(2, b"a"), "refused 13 event 1 store 3 2 1");
    let two = sheet().start(1).finish().start(1).finish();
    both.run(two, "refused 13 event 4 store 3 2 1");
    both.run(sheet().start(1), "refused 13 event 1 store 3 2 1");
}

#[test]
fn refusal_14_open_nodes() {
    let open = |count: usize| (0..count).fold(sheet(), |it, _| it.start(1));
    Both::default().run(open(64), "refused 13 event 64 store 0 0 0");
    Both::default().run(open(65), "refused 14 event 64 store 0 0 0");
    let start_at = open(64).checkpoint(0).start_at(1, 0);
    Both::default().run(start_at, "refused 14 event 65 store 0 0 0");
    // An unset register is refusal 12, the lower number.
    Both::default().run(open(64).start_at(1, 0), "refused 12 event 64 store 0 0 0");
}

#[test]
fn refusal_14_children() {
    let mut both = with_tree_t();
    both.expect(splice(3, 0, 3, &[0; 4_097]), "refused 14 store 4 3 5");
    both.expect(splice(3, 0, 3, &[0; 4_096]), "element 4 store 5 4099 5");
    both.expect(insert_child(4, 0, 0), "refused 14 store 5 4099 5");
    both.expect(insert_child(4, 4_097, 0), "refused 5 store 5 4099 5");
    both.expect(replace_child(4, 4_096, 0), "element 5 store 6 8195 5");
}

#[test]
fn refusal_14_height() {
    let mut both = Both::default();
    let chain = (0..64).fold(sheet().checkpoint(0), |it, _| it.start_at(1, 0).finish());
    both.run(chain, "root 63 store 64 63 0");
    both.expect(insert_child(63, 0, 62), "element 64 store 65 65 0");
    both.expect(insert_child(63, 0, 63), "refused 14 store 65 65 0");
    both.expect(replace_with(1, 63, &[0; 63]), "refused 14 store 65 65 0");
    // Past the last child the new element is not placed.
    both.expect(replace_child(63, 1, 63), "element 65 store 66 66 0");
}

#[test]
fn refusal_14_size() {
    let mut both = Both::default();
    both.run(sheet().start(1).finish(), "root 0 store 1 0 0");
    for number in 1..20 {
        let doubled = splice(number - 1, 0, 2 * u32::from(number > 1), &[number - 1; 2]);
        let reply = format!("element {number} store {} {} 0", number + 1, 2 * number);
        both.expect(doubled, &reply);
    }
    both.expect(Call::Element { number: 19 }, "node 1 0 1048575 20 2");
    both.expect(insert_child(0, 0, 19), "element 20 store 21 39 0");
    both.expect(Call::Element { number: 20 }, "node 1 0 1048576 21 1");
    both.expect(insert_child(0, 0, 20), "refused 14 store 21 39 0");
    both.expect(insert_child(20, 0, 0), "refused 14 store 21 39 0");
}

#[test]
fn refusal_14_length() {
    let mut both = Both::default();
    let long = sheet()
        .start(1)
        .token(2, &[b'a'; 65_535])
        .token(2, b"b")
        .token(2, b"");
    both.run(long.finish(), "root 3 store 4 3 65536");
    both.expect(splice(3, 0, 3, &[0; 4_096]), "element 4 store 5 4099 65536");
    // 65,537 tokens of 65,535 bytes: 4,294,967,295.
    let most = [&[4; 16][..], &[0]].concat();
    both.expect(splice(3, 0, 3, &most), "element 5 store 6 4116 65536");
    both.expect(Call::Element { number: 5 }, "node 1 4294967295 65554 2 17");
    both.expect(insert_child(5, 0, 1), "refused 14 store 6 4116 65536");
    both.expect(insert_child(5, 0, 2), "element 6 store 7 4134 65536");
    both.expect(
        token_at(u32::MAX, 6, &[]),
        "token 2 4294901760 4294967295 1 17",
    );
}

#[test]
fn refusal_15_each_of_the_three_places() {
    let mut both = Both::default();
    for (lent, reply) in [
        ((4, 3, 5), "root 3 store 4 3 5"),
        ((3, 3, 5), "refused 15 event 4 store 3 0 5"),
        ((4, 2, 5), "refused 15 event 4 store 3 0 5"),
        ((4, 3, 4), "refused 15 event 3 store 2 0 3"),
        ((0, 0, 0), "refused 15 event 1 store 0 0 0"),
    ] {
        both.expect(store(lent.0, lent.1, lent.2), "ok");
        both.run(tree_t(), reply);
        // What is found needs no place.
        both.run(tree_t(), reply);
    }
}

#[test]
fn refusal_15_the_most_that_a_store_uses() {
    let mut both = Both::default();
    both.expect(store(70_000, 70_000, 70_000), "ok");
    let tokens = |kinds: std::ops::Range<u16>| {
        let tokens = kinds.fold(sheet().start(1), |it, kind| it.token(kind, b""));
        tokens.finish()
    };
    both.run(tokens(0..4_094), "root 4094 store 4095 4094 0");
    both.run(tokens(4_094..8_188), "root 8189 store 8190 8188 0");
    both.run(tokens(8_188..8_191), "refused 15 event 3 store 8192 8188 0");
    both.run(tokens(0..4_094), "refused 15 event 4095 store 8192 8188 0");
    both.expect(store(70_000, 70_000, 70_000), "ok");
    let long = sheet().start(1).token(2, &[b'a'; 65_536]).finish();
    both.run(long, "root 1 store 2 1 65536");
    both.run(sheet().token(2, b"a"), "refused 15 event 0 store 2 1 65536");
    for made in 1..=4 {
        let places = 1 + 4_095 * made;
        let reply = format!("element {} store {} {places} 65536", 1 + made, 2 + made);
        both.expect(splice(1, 0, 1, &[0; 4_095]), &reply);
    }
    both.expect(splice(1, 0, 1, &[0; 4]), "refused 15 store 6 16381 65536");
    both.expect(splice(1, 0, 1, &[0; 3]), "element 6 store 7 16384 65536");
    both.expect(splice(1, 0, 1, &[]), "element 7 store 8 16384 65536");
}

#[test]
fn refusal_15_edits() {
    let mut both = Both::default();
    both.expect(store(5, 8, 5), "ok");
    both.run(tree_t(), "root 3 store 4 3 5");
    both.expect(splice(3, 0, 0, &[0, 0, 0]), "refused 15 store 4 3 5");
    both.expect(insert_child(3, 0, 0), "element 4 store 5 7 5");
    both.expect(remove_child(3, 0), "refused 15 store 5 7 5");
    // At the root nothing is made.
    both.expect(replace_with(4, 3, &[]), "element 4 store 5 7 5");
    both.expect(replace_with(0, 3, &[0]), "refused 15 store 5 7 5");
}

#[test]
fn refusal_14_of_the_top_comes_before_15_of_the_lowest() {
    let mut both = Both::default();
    let chain = (0..64).fold(sheet().checkpoint(0), |it, _| it.start_at(1, 0).finish());
    both.expect(store(65, 70, 0), "ok");
    both.run(chain, "root 63 store 64 63 0");
    // 62 ancestors are needed and one record is left; the top one would have height 65.
    both.expect(replace_with(2, 63, &[0; 62]), "refused 14 store 64 63 0");
    // With no ancestor too high it is the room that lacks, and none is made.
    both.expect(replace_with(1, 63, &[0; 62]), "refused 15 store 64 63 0");
    both.expect(replace_with(62, 63, &[0]), "element 64 store 65 64 0");
}

#[test]
fn refusal_16_leaves_the_walk_new() {
    let mut both = with_tree_t();
    both.expect(walk_begin(true, 3, &[]), "ok");
    both.expect(WALK_SKIP, "refused 16");
    both.expect(WALK_SKIP, "refused 16");
    both.expect(WALK_NEXT, "enter node 1 0 5 0");
    both.expect(WALK_SKIP, "ok");
    both.expect(WALK_NEXT, "leave node 1 0 5 0");
    both.expect(WALK_SKIP, "ok");
    both.expect(WALK_NEXT, "ended");
}

#[test]
fn an_event_is_one_exactly_if_refusal_2_lets_it_pass() {
    for word in [0x1_0007, 0x2_0007, 0x3_0000, 0x4_0000, 0x5_0007] {
        assert!(Event::of_words((word, 0)).is_some(), "{word:x}");
    }
    for (word, operand) in [
        (0x2_0007, 1),
        (0x3_0001, 0),
        (0x4_0001, 0),
        (0x5_0007, 64),
        (0, 0),
    ] {
        assert!(Event::of_words((word, operand)).is_none(), "{word:x}");
    }
    let (sheet, _) = tree_t().files();
    assert_eq!(Sheet::read(&sheet).map(|it| it.write()), Some(sheet));
}
