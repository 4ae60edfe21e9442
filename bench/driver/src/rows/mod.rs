//! What is timed, row by row.

mod builds;
mod edits;
mod elements;
mod handles;
mod places;
mod texts;
mod tokens;
mod walks;

use crate::{case::Case, measure::Bench};
use rowan::cursor::{SyntaxElement, SyntaxNode, SyntaxToken};
use rowan::{SyntaxKind, TextRange};

pub use builds::builds;

pub struct Spec {
    pub key: &'static str,
    pub title: &'static str,
    pub unit: &'static str,
}

/// The rows, in the order of the table.
pub const SPECS: [Spec; 23] = [
    Spec { key: "build", title: "first build", unit: "event" },
    Spec { key: "rebuild", title: "second build into the same store", unit: "event" },
    Spec { key: "walk_many", title: "walk with tokens, many events a call", unit: "event" },
    Spec { key: "walk_next", title: "walk with tokens, one event a call", unit: "event" },
    Spec { key: "next_token", title: "next_token, all tokens", unit: "call" },
    Spec { key: "prev_token", title: "prev_token, all tokens", unit: "call" },
    Spec { key: "first_token", title: "first_token of every node", unit: "call" },
    Spec { key: "last_token", title: "last_token of every node", unit: "call" },
    Spec { key: "at_offset", title: "token_at_offset, random", unit: "call" },
    Spec { key: "covering", title: "covering_element, random", unit: "call" },
    Spec { key: "at_range", title: "child_or_token_at_range, random", unit: "call" },
    Spec { key: "next_node", title: "first_child, next_sibling", unit: "call" },
    Spec { key: "prev_node", title: "last_child, prev_sibling", unit: "call" },
    Spec { key: "next_element", title: "first_child_or_token, next_sibling_or_token", unit: "call" },
    Spec { key: "prev_element", title: "last_child_or_token, prev_sibling_or_token", unit: "call" },
    Spec { key: "parent", title: "parent of every token", unit: "call" },
    Spec { key: "fields", title: "the handle's own range and kind", unit: "call" },
    Spec { key: "replace_child", title: "replace_child of the root", unit: "call" },
    Spec { key: "replace_with", title: "replace_with of a deepest token", unit: "call" },
    Spec { key: "chunks", title: "text chunks", unit: "chunk" },
    Spec { key: "find", title: "find_char, not there", unit: "token" },
    Spec { key: "equal", title: "equality with a twin", unit: "token" },
    Spec { key: "where_is", title: "where-is, random elements", unit: "call" },
];

/// The rows of the Rust crate's handles.
pub const HANDLES: [Spec; 6] = [
    Spec { key: "crate_walk", title: "descendants_with_tokens", unit: "element" },
    Spec { key: "crate_children", title: "children_with_tokens of every node", unit: "element" },
    Spec { key: "crate_next_token", title: "next_token, all tokens", unit: "call" },
    Spec { key: "crate_text", title: "text of every token, in a walk", unit: "token" },
    Spec { key: "crate_chunks", title: "for_each_chunk", unit: "chunk" },
    Spec { key: "crate_find", title: "find_char, not there", unit: "token" },
];

/// Every row that is wanted, on one tree.
pub fn all(case: &Case, bench: &mut Bench) {
    builds(case.name, &case.sheet, bench);
    walks::rows(case, bench);
    tokens::rows(case, bench);
    places::rows(case, bench);
    elements::rows(case, bench);
    edits::rows(case, bench);
    texts::rows(case, bench);
    handles::rows(case, bench);
}

/// A byte that no tree has: a search for it goes over all.
const ABSENT: char = '@';

/// An element's range and kind in one number.
#[inline]
fn sum(start: usize, end: usize, kind: usize) -> u64 {
    (start + 3 * end + 5 * kind) as u64
}

#[inline]
fn sum_of(range: TextRange, kind: SyntaxKind) -> u64 {
    let [start, end] = [range.start(), range.end()].map(|it| u32::from(it) as usize);
    sum(start, end, kind.0 as usize)
}

#[inline]
fn of_element(it: &SyntaxElement) -> u64 {
    sum_of(it.text_range(), it.kind())
}

#[inline]
fn of_node(it: &SyntaxNode) -> u64 {
    sum_of(it.text_range(), it.kind())
}

#[inline]
fn of_token(it: &SyntaxToken) -> u64 {
    sum_of(it.text_range(), it.kind())
}

/// Of an answer's first words: start, end, depth, kind.
#[inline]
fn of_words(words: &[usize]) -> u64 {
    sum(words[0], words[1], words[3])
}
