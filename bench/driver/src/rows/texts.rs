//! The text of the whole tree.

use super::ABSENT;
use crate::{ask, case::Case, ffi, measure::Bench};

pub fn rows(case: &Case, bench: &mut Bench) {
    let tokens = case.tokens().count();
    if bench.wants("chunks") {
        bench.time(case.name, "chunks", tokens, |_| chunks(case), || our_chunks(case));
    }
    if bench.wants("find") {
        let rowan = || case.tree.text().find_char(ABSENT).map_or(u64::MAX, |it| u32::from(it).into());
        bench.time(case.name, "find", tokens, |_| rowan(), || our_find(case));
    }
    if bench.wants("equal") {
        let rowan = || u64::from(case.tree.text() == case.twin.text());
        bench.time(case.name, "equal", tokens, |_| rowan(), || our_equal(case));
    }
}

/// Of each chunk the length and the last byte.
fn of_chunk(chunk: &[u8]) -> u64 {
    chunk.len() as u64 + 3 * chunk.last().map_or(0, |it| u64::from(*it))
}

fn chunks(case: &Case) -> u64 {
    let mut total = 0;
    case.tree.text().for_each_chunk(|it| total += of_chunk(it.as_bytes()));
    total
}

fn our_chunks(case: &Case) -> u64 {
    let mut state = [0; 2];
    let mut place = [0; 64];
    let mut words = [0; 8];
    let mut total = 0;
    let path = [0; 64];
    let mut next = || {
        let outcome = ask!(
            &case.store,
            notes_next_chunk,
            case.root,
            &path,
            0,
            0,
            case.length,
            &mut state,
            &mut place,
            &mut words
        );
        (outcome == ffi::CHUNK).then(|| &case.store.text[words[0]..words[1]])
    };
    while let Some(chunk) = next() {
        total += of_chunk(chunk);
    }
    total
}

/// A question about the root's text.
fn query(case: &Case, code: usize, operands: &ffi::Words) -> (usize, usize) {
    let mut words = [0; 8];
    let outcome = ask!(&case.store, notes_query, case.root, &mut [0; 64], &mut [0; 64], 0, code, operands, &mut words);
    (outcome, words[0])
}

fn our_find(case: &Case) -> u64 {
    match query(case, ffi::FIND_CHAR, &[0, case.length, ABSENT as usize, 0, 0, 0, 0, 0]) {
        (ffi::NONE, _) => u64::MAX,
        (_, at) => at as u64,
    }
}

fn our_equal(case: &Case) -> u64 {
    let (outcome, _) = query(case, ffi::EQUAL_TEXT, &[0, case.length, case.twin_root, 0, 0, case.length, 0, 0]);
    u64::from(outcome == ffi::YES)
}
