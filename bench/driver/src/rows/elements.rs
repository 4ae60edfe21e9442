//! Children and siblings each way over the whole tree; parents; the handle's own fields; where an element is.

use super::{of_element, of_node, of_words};
use crate::{ask, case::Case, case::Place, ffi, measure::Bench};
use rowan::{
    cursor::{SyntaxElement, SyntaxNode},
    NodeOrToken,
};

/// Where-is asked in a run.
const SEARCHES: usize = 64;

/// Down to a child, along its siblings, and so below each of them: the sum, and how many calls it took.
macro_rules! rowans {
    ($name:ident, $down:ident, $along:ident, $of:ident, $node_of:path) => {
        fn $name(node: &SyntaxNode, calls: &mut usize) -> u64 {
            let mut total = 0;
            let mut next = node.$down();
            while let Some(child) = next {
                total += $of(&child);
                if let Some(node) = $node_of(&child) {
                    total += $name(node, calls);
                }
                next = child.$along();
                *calls += 1;
            }
            *calls += 1;
            total
        }
    };
}

/// The same over one lent path.
macro_rules! ours {
    ($name:ident, $down:ident, $along:ident) => {
        fn $name(case: &Case, path: &mut ffi::Path, depth: usize) -> u64 {
            let mut words = [0; 8];
            let mut total = 0;
            let mut outcome = ask!(&case.store, $down, case.root, path, depth, &mut words);
            while outcome != ffi::NONE {
                total += of_words(&words);
                if outcome == ffi::NODE {
                    total += $name(case, path, depth + 1);
                }
                outcome = ask!(&case.store, $along, case.root, path, depth + 1, &mut words);
            }
            total
        }
    };
}

rowans!(next_nodes, first_child, next_sibling, of_node, Some);
rowans!(prev_nodes, last_child, prev_sibling, of_node, Some);
rowans!(next_elements, first_child_or_token, next_sibling_or_token, of_element, SyntaxElement::as_node);
rowans!(prev_elements, last_child_or_token, prev_sibling_or_token, of_element, SyntaxElement::as_node);
ours!(our_next_nodes, notes_first_child, notes_next_sibling);
ours!(our_prev_nodes, notes_last_child, notes_prev_sibling);
ours!(our_next_elements, notes_first_child_or_token, notes_next_sibling_or_token);
ours!(our_prev_elements, notes_last_child_or_token, notes_prev_sibling_or_token);

type ByRowan = fn(&SyntaxNode, &mut usize) -> u64;
type ByUs = fn(&Case, &mut ffi::Path, usize) -> u64;

const FAMILIES: [(&str, ByRowan, ByUs); 4] = [
    ("next_node", next_nodes, our_next_nodes),
    ("prev_node", prev_nodes, our_prev_nodes),
    ("next_element", next_elements, our_next_elements),
    ("prev_element", prev_elements, our_prev_elements),
];

pub fn rows(case: &Case, bench: &mut Bench) {
    for (key, rowan, ours) in FAMILIES {
        if bench.wants(key) {
            let mut calls = 0;
            rowan(&case.tree, &mut calls);
            bench.time(case.name, key, calls, |_| rowan(&case.tree, &mut 0), || ours(case, &mut [0; 64], 0));
        }
    }
    let tokens: Vec<&Place> = case.tokens().collect();
    if bench.wants("parent") {
        let rowan = || tokens.iter().map(|it| of_node(&it.handle.parent().unwrap())).sum();
        let ours = || tokens.iter().map(|it| our_parent(case, it)).sum();
        bench.time(case.name, "parent", tokens.len(), |_| rowan(), ours);
    }
    if bench.wants("fields") {
        let rowan = || tokens.iter().map(|it| of_element(&it.handle)).sum();
        let mut paths: Vec<_> = tokens.iter().map(|it| (it.path, it.depth)).collect();
        let ours = || paths.iter_mut().map(|(path, depth)| our_fields(case, path, *depth)).sum();
        bench.time(case.name, "fields", tokens.len(), |_| rowan(), ours);
    }
    if bench.wants("where_is") {
        where_is(case, bench);
    }
}

fn our_parent(case: &Case, place: &Place) -> u64 {
    let mut words = [0; 8];
    ask!(&case.store, notes_parent, case.root, &place.path, place.depth, &mut words);
    of_words(&words)
}

fn our_fields(case: &Case, path: &mut ffi::Path, depth: usize) -> u64 {
    let mut words = [0; 8];
    ask!(&case.store, notes_query, case.root, path, &mut [0; 64], depth, ffi::HERE, &[0; 8], &mut words);
    of_words(&words)
}

/// rowan has no such call: its walk is followed up to the first element of that record.
fn where_is(case: &Case, bench: &mut Bench) {
    let sought = case.sample(case.places.iter(), SEARCHES);
    let records: Vec<*const u8> = sought.iter().map(|it| record(&it.handle)).collect();
    let find = |it: &*const u8| case.tree.descendants_with_tokens().any(|at| record(&at) == *it);
    let rowan = || records.iter().filter(|it| find(it)).count() as u64;
    for place in &sought {
        let (path, depth) = our_where_is(case, place.number);
        assert_eq!(case.store.number_at(case.root, &path[..depth]), place.number);
    }
    let ours = || sought.iter().filter(|it| our_where_is(case, it.number).1 <= 64).count() as u64;
    bench.time(case.name, "where_is", SEARCHES, |_| rowan(), ours);
}

fn our_where_is(case: &Case, number: usize) -> (ffi::Path, usize) {
    let mut path = [0; 64];
    let mut words = [0; 8];
    let operands = [number, 0, 0, 0, 0, 0, 0, 0];
    let outcome =
        ask!(&case.store, notes_query, case.root, &mut path, &mut [0; 64], 0, ffi::WHERE_IS, &operands, &mut words);
    assert_eq!(outcome, ffi::PATH);
    (path, words[0])
}

/// The address of the green element.
fn record(element: &SyntaxElement) -> *const u8 {
    match element {
        NodeOrToken::Node(it) => std::ptr::from_ref(it.green()).cast(),
        NodeOrToken::Token(it) => std::ptr::from_ref(it.green()).cast(),
    }
}
