//! Questions to the root about random offsets and ranges.

use super::{of_element, of_token, of_words};
use crate::{ask, case::Case, ffi, measure::Bench};
use rowan::{TextRange, TextSize, TokenAtOffset};

/// Questions in a run. rowan goes over all children of a node for an offset: fewer of these.
const OFFSETS: usize = 100;
const RANGES: usize = 1_000;

fn size(offset: usize) -> TextSize {
    TextSize::from(offset as u32)
}

pub fn rows(case: &Case, bench: &mut Bench) {
    let name = case.name;
    let ranges = case.ranges(RANGES);
    let of_rowan = |(start, end): &(usize, usize)| TextRange::new(size(*start), size(*end));
    let text_ranges: Vec<TextRange> = ranges.iter().map(of_rowan).collect();
    if bench.wants("at_offset") {
        let offsets: Vec<usize> = ranges.iter().take(OFFSETS).map(|it| it.0).collect();
        let rowan = || offsets.iter().map(|it| at_offset(case, *it)).sum();
        let ours = || offsets.iter().map(|it| our_at_offset(case, *it)).sum();
        bench.time(name, "at_offset", OFFSETS, |_| rowan(), ours);
    }
    if bench.wants("covering") {
        let rowan = || text_ranges.iter().map(|it| of_element(&case.tree.covering_element(*it))).sum();
        let ours = || ranges.iter().map(|it| our_covering(case, *it)).sum();
        bench.time(name, "covering", RANGES, |_| rowan(), ours);
    }
    if bench.wants("at_range") {
        let at_range = |it: &TextRange| case.tree.child_or_token_at_range(*it).map_or(0, |it| of_element(&it));
        let rowan = || text_ranges.iter().map(at_range).sum();
        let ours = || ranges.iter().map(|it| our_at_range(case, *it)).sum();
        bench.time(name, "at_range", RANGES, |_| rowan(), ours);
    }
}

fn at_offset(case: &Case, offset: usize) -> u64 {
    match case.tree.token_at_offset(size(offset)) {
        TokenAtOffset::None => 0,
        TokenAtOffset::Single(it) => of_token(&it),
        TokenAtOffset::Between(left, right) => of_token(&left) + 7 * of_token(&right),
    }
}

fn our_at_offset(case: &Case, offset: usize) -> u64 {
    let mut left = [0; 64];
    let mut right = [0; 64];
    let mut words = [0; 8];
    match ask!(&case.store, notes_token_at_offset, case.root, &mut left, &mut right, 0, offset, &mut words) {
        ffi::NONE => 0,
        ffi::PAIR => of_words(&words) + 7 * of_words(&words[4..]),
        _ => of_words(&words),
    }
}

fn our_covering(case: &Case, (start, end): (usize, usize)) -> u64 {
    let mut path = [0; 64];
    let mut words = [0; 8];
    ask!(&case.store, notes_covering_element, case.root, &mut path, 0, start, end, &mut words);
    of_words(&words)
}

fn our_at_range(case: &Case, (start, end): (usize, usize)) -> u64 {
    let mut path = [0; 64];
    let mut words = [0; 8];
    match ask!(&case.store, notes_child_or_token_at_range, case.root, &mut path, 0, start, end, &mut words) {
        ffi::NONE => 0,
        _ => of_words(&words),
    }
}
