//! Edits. What rowan makes is dropped off the clock; the library's counts are put back after each edit, so that the store is again
//! what it was.

use crate::{
    case::{places, Case, Place},
    ffi,
    measure::{Bench, Kept},
    store::Store,
    trees::Random,
};
use rowan::{cursor::SyntaxNode, GreenNode, GreenToken, NodeOrToken};

/// Edits in a run: what rowan keeps of them stays within a cache.
const EDITS: usize = 8;

pub fn rows(case: &Case, bench: &mut Bench) {
    if bench.wants("replace_child") {
        replace_child(case, bench);
    }
    if bench.wants("replace_with") {
        replace_with(case, bench);
    }
}

/// Both trees are walked side by side and must agree.
fn check(made: &GreenNode, store: &Store, number: usize) {
    places(&SyntaxNode::new_root(made.clone()), store, number);
}

/// Random children of the root, each by its neighbour to the right or, of the last one, by the first.
fn replace_child(case: &Case, bench: &mut Bench) {
    let owned = |it: NodeOrToken<&rowan::GreenNodeData, &rowan::GreenTokenData>| match it {
        NodeOrToken::Node(it) => NodeOrToken::Node(it.to_owned()),
        NodeOrToken::Token(it) => NodeOrToken::Token(it.to_owned()),
    };
    let children: Vec<NodeOrToken<GreenNode, GreenToken>> = case.tree.green().children().map(owned).collect();
    let mut random = Random::new(17);
    let at: Vec<usize> = (0..EDITS).map(|_| random.below(children.len())).collect();
    let to = |at: usize| (at + 1) % children.len();
    let numbers: Vec<usize> = at.iter().map(|it| case.store.number_at(case.root, &[to(*it) as u32])).collect();
    let rowan = |it: usize| case.tree.green().replace_child(it, children[to(it)].clone());
    let mut store = case.store.clone();
    let before = store.used;
    let mut ours = |at: &usize, number: &usize| {
        store.used = before;
        store.edit(ffi::REPLACE_CHILD, case.root, *at, *number, &[0; 64])
    };
    for (at, number) in at.iter().zip(&numbers) {
        let made = ours(at, number);
        check(&rowan(*at), &store_after(case, ffi::REPLACE_CHILD, *at, *number, &[0; 64]), made);
    }
    let by_rowan = |kept: &mut Kept| {
        kept.nodes.extend(at.iter().map(|it| rowan(*it)));
        EDITS as u64
    };
    let by_us = || at.iter().zip(&numbers).filter(|(at, number)| ours(at, number) > 0).count() as u64;
    bench.time(case.name, "replace_child", EDITS, by_rowan, by_us);
}

/// A copy of the store after one edit of the root.
fn store_after(case: &Case, code: usize, from: usize, to: usize, path: &ffi::Path) -> Store {
    let mut store = case.store.clone();
    store.edit(code, case.root, from, to, path);
    store
}

/// Random tokens among the deepest, each by another element of its kind.
fn replace_with(case: &Case, bench: &mut Bench) {
    let deepest = case.tokens().map(|it| it.depth).max().unwrap_or(0);
    let sample = case.sample(case.tokens().filter(|it| it.depth == deepest), EDITS);
    let edits: Vec<(&Place, &Place)> = sample.into_iter().map(|it| (it, replacement(case, it))).collect();
    let rowan = |(old, new): &(&Place, &Place)| {
        let (old, new) = (old.token().unwrap(), new.token().unwrap());
        old.replace_with(new.green().to_owned())
    };
    let mut store = case.store.clone();
    let before = store.used;
    let mut ours = |(old, new): &(&Place, &Place)| {
        store.used = before;
        store.edit(ffi::REPLACE_WITH, case.root, old.depth, new.number, &old.path)
    };
    for edit in &edits {
        let made = ours(edit);
        let (old, new) = edit;
        check(&rowan(edit), &store_after(case, ffi::REPLACE_WITH, old.depth, new.number, &old.path), made);
    }
    let by_rowan = |kept: &mut Kept| {
        kept.nodes.extend(edits.iter().map(rowan));
        EDITS as u64
    };
    let by_us = || edits.iter().filter(|it| ours(it) > 0).count() as u64;
    bench.time(case.name, "replace_with", EDITS, by_rowan, by_us);
}

/// A token of the same kind, another one if there is one.
fn replacement<'a>(case: &'a Case, place: &'a Place) -> &'a Place {
    let fits = |it: &&Place| it.handle.kind() == place.handle.kind() && it.number != place.number;
    case.tokens().find(fits).unwrap_or(place)
}
