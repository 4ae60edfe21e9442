//! From token to token through the whole tree, and the first and last token below every node.

use super::{of_token, of_words};
use crate::{ask, case::Case, ffi, measure::Bench};

/// Follows the tokens from the first or last on; the last call finds none.
macro_rules! follow {
    ($case:expr, $first:ident, $next:ident) => {{
        let mut path = [0; 64];
        let mut words = [0; 8];
        let mut total = 0;
        let mut outcome = ask!(&$case.store, $first, $case.root, &mut path, 0, &mut words);
        while outcome == ffi::TOKEN {
            total += of_words(&words);
            outcome = ask!(&$case.store, $next, $case.root, &mut path, words[2], &mut words);
        }
        total
    }};
}

/// The answer for every node. The call writes below the node's own indexes alone, so its path serves again.
macro_rules! edge {
    ($case:expr, $paths:expr, $call:ident) => {{
        let mut words = [0; 8];
        let mut total = 0;
        for (path, depth) in &mut $paths {
            ask!(&$case.store, $call, $case.root, path, *depth, &mut words);
            total += of_words(&words);
        }
        total
    }};
}

pub fn rows(case: &Case, bench: &mut Bench) {
    let name = case.name;
    let tokens = case.tokens().count();
    if bench.wants("next_token") {
        bench.time(
            name,
            "next_token",
            tokens,
            |_| forward(case),
            || follow!(case, notes_first_token, notes_next_token),
        );
    }
    if bench.wants("prev_token") {
        bench.time(
            name,
            "prev_token",
            tokens,
            |_| backward(case),
            || follow!(case, notes_last_token, notes_prev_token),
        );
    }
    let nodes: Vec<_> = case.nodes().filter_map(|it| it.node()).collect();
    let mut paths: Vec<_> = case.nodes().map(|it| (it.path, it.depth)).collect();
    if bench.wants("first_token") {
        let rowan = || nodes.iter().map(|it| of_token(&it.first_token().unwrap())).sum();
        bench.time(name, "first_token", nodes.len(), |_| rowan(), || edge!(case, paths, notes_first_token));
    }
    if bench.wants("last_token") {
        let rowan = || nodes.iter().map(|it| of_token(&it.last_token().unwrap())).sum();
        bench.time(name, "last_token", nodes.len(), |_| rowan(), || edge!(case, paths, notes_last_token));
    }
}

fn forward(case: &Case) -> u64 {
    let mut total = 0;
    let mut next = case.tree.first_token();
    while let Some(token) = next {
        total += of_token(&token);
        next = token.next_token();
    }
    total
}

fn backward(case: &Case) -> u64 {
    let mut total = 0;
    let mut next = case.tree.last_token();
    while let Some(token) = next {
        total += of_token(&token);
        next = token.prev_token();
    }
    total
}
