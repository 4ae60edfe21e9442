//! Call 64: records as they stand in the store, with values written by hand.

mod support;

use oracle::script::{read, write, Call};
use support::*;

fn record(number: u32) -> Call {
    Call::Record { number }
}

/// Both readings show these records, and none after them.
#[track_caller]
fn expect_records(both: &mut Both, shown: &[&str]) {
    for (number, line) in shown.iter().enumerate() {
        both.expect(record(number as u32), line);
    }
    both.expect(record(shown.len() as u32), "refused 4");
}

const TREE_T: [&str; 4] = [
    "token 2 2 4253",
    "token 3 1 20",
    "token 4 2 3132",
    "node 1 event 3 0 1 2",
];

#[test]
fn a_call_is_its_number_and_one_word() {
    let bytes: Vec<u8> = [64u32, 1, 3]
        .iter()
        .flat_map(|it| it.to_le_bytes())
        .collect();
    assert_eq!(read(&bytes), Ok(vec![record(3)]));
    assert_eq!(write(&[record(3)]), bytes);
    assert_eq!(record(3).to_string(), "record 3");
}

#[test]
fn the_records_of_tree_t() {
    expect_records(&mut Both::default(), &[]);
    let mut both = with_tree_t();
    expect_records(&mut both, &TREE_T);
    both.expect(record(u32::MAX), "refused 4");
    // A second run finds all of them.
    both.run(tree_t(), "root 3 store 4 3 5");
    expect_records(&mut both, &TREE_T);
}

#[test]
fn empty_tokens_childless_nodes_and_the_ends_of_bytes_and_kinds() {
    let mut both = Both::default();
    let start = sheet().start(0).token(0, b"").start(65_535).finish();
    let tree = start.token(65_535, b"\x00\x7f\n").token(0, b"").finish();
    both.run(tree, "root 3 store 4 4 3");
    let shown = [
        "token 0 0",
        "node 65535 event 0",
        "token 65535 3 007f0a",
        "node 0 event 4 0 1 2 0",
    ];
    expect_records(&mut both, &shown);
}

#[test]
fn an_edit_s_record_says_so() {
    let mut both = with_tree_t();
    both.expect(replace_child(3, 1, 0), "element 4 store 5 6 5");
    both.expect(insert_child(3, 3, 1), "element 5 store 6 10 5");
    both.expect(remove_child(3, 0), "element 6 store 7 12 5");
    both.expect(splice(3, 1, 2, &[3, 2]), "element 7 store 8 16 5");
    both.expect(splice(3, 0, 3, &[]), "element 8 store 9 16 5");
    let edited = [
        "node 1 edit 3 0 0 2",
        "node 1 edit 4 0 1 2 1",
        "node 1 edit 2 1 2",
        "node 1 edit 4 0 3 2 2",
        "node 1 edit 0",
    ];
    expect_records(&mut both, &[&TREE_T[..], &edited].concat());
    // A run makes its own record of what an edit made before.
    let alike = sheet().start(1).token(3, b" ").token(4, b"12").finish();
    both.run(alike, "root 9 store 10 18 5");
    let made = ["node 1 event 2 1 2"];
    expect_records(&mut both, &[&TREE_T[..], &edited, &made].concat());
}

#[test]
fn replace_with_makes_the_lowest_ancestor_first() {
    let mut both = Both::default();
    let inner = sheet().start(1).start(2).start(3).token(4, b"a").finish();
    let tree = inner.token(4, b"b").finish().token(5, b"c").finish();
    both.run(tree, "root 5 store 6 5 3");
    both.expect(replace_with(2, 5, &[0, 0, 0]), "element 8 store 9 10 3");
    let shown = [
        "token 4 1 61",
        "node 3 event 1 0",
        "token 4 1 62",
        "node 2 event 2 1 2",
        "token 5 1 63",
        "node 1 event 2 3 4",
        "node 3 edit 1 2",
        "node 2 edit 2 6 2",
        "node 1 edit 2 7 4",
    ];
    expect_records(&mut both, &shown);
}

#[test]
fn a_refused_call_leaves_the_records() {
    let mut both = Both::default();
    both.expect(store(4, 3, 5), "ok");
    both.run(tree_t(), "root 3 store 4 3 5");
    both.expect(remove_child(3, 0), "refused 15 store 4 3 5");
    both.expect(replace_with(0, 3, &[0]), "refused 15 store 4 3 5");
    both.expect(replace_with(1, 3, &[0]), "refused 6 store 4 3 5");
    both.expect(splice(3, 1, 0, &[0]), "refused 5 store 4 3 5");
    both.run(sheet().token(9, b"x"), "refused 15 event 0 store 4 3 5");
    expect_records(&mut both, &TREE_T);
}
