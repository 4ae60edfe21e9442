//! The walk of the whole tree with its tokens; of each event the kind and the range are looked at.

use super::{of_element, of_words, sum};
use crate::{ask, case::Case, ffi, measure::Bench};
use rowan::WalkEvent;

/// Events that a call has place for.
const EVENTS: usize = 256;

pub fn rows(case: &Case, bench: &mut Bench) {
    let events = 2 * case.places.len();
    if bench.wants("walk_many") {
        let mut buffer = vec![0; 7 * EVENTS];
        bench.time(case.name, "walk_many", events, |_| by_rowan(case), || many(case, &mut buffer));
    }
    if bench.wants("walk_next") {
        bench.time(case.name, "walk_next", events, |_| by_rowan(case), || one(case));
    }
}

fn by_rowan(case: &Case) -> u64 {
    let event = |event| match event {
        WalkEvent::Enter(it) => of_element(&it),
        WalkEvent::Leave(it) => 7 * of_element(&it),
    };
    case.tree.preorder_with_tokens().map(event).sum()
}

fn many(case: &Case, buffer: &mut [u64]) -> u64 {
    let mut walk = [0; 8];
    let mut path = [0; 64];
    let mut words = [0; 8];
    let mut total = 0;
    ask!(&case.store, notes_walk_begin, case.root, 1, &path, 0, &mut walk);
    loop {
        let (events, len) = (buffer.as_mut_ptr(), buffer.len());
        let outcome = ask!(&case.store, notes_walk_many, &mut walk, &mut path, events, len, &mut words);
        for event in buffer.chunks_exact(7).take(words[0]) {
            let of_event = sum(event[5] as usize, event[6] as usize, event[2] as usize);
            total += if event[0] == 0 { of_event } else { 7 * of_event };
        }
        if outcome == ffi::NONE {
            return total;
        }
    }
}

fn one(case: &Case) -> u64 {
    let mut walk = [0; 8];
    let mut path = [0; 64];
    let mut words = [0; 8];
    let mut total = 0;
    ask!(&case.store, notes_walk_begin, case.root, 1, &path, 0, &mut walk);
    loop {
        match ask!(&case.store, notes_walk_next, &mut walk, &mut path, &mut words) {
            ffi::NONE => return total,
            ffi::ENTER => total += of_words(&words),
            _ => total += 7 * of_words(&words),
        }
    }
}
