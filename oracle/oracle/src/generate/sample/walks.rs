//! Walks of the stored sample.

use super::{chain, empties, nested, path, tree_t, Recorder};
use crate::{
    generate::exhaust::{all_paths, walks::walk},
    script::{Call, Path, SLOTS},
};

pub fn walks(sample: &mut Recorder) {
    every_skip(sample);
    pairs_of_skips(sample);
    empty_slots(sample);
    kept(sample);
    deep(sample);
    many(sample);
}

impl Recorder {
    fn begin(&mut self, slot: usize, tokens: bool, path: &Path) {
        let path = path.clone();
        self.put(Call::WalkBegin { slot, tokens, path });
    }

    fn next(&mut self, slot: usize, times: usize) {
        for _ in 0..times {
            self.put(Call::WalkNext { slot });
        }
    }

    fn many(&mut self, slot: usize, count: u32) {
        self.put(Call::WalkMany { slot, count });
    }

    fn skip(&mut self, slot: usize) {
        self.put(Call::WalkSkip { slot });
    }
}

/// Both walks from every path, tokens and such that lead nowhere among them, with a skip at every
/// place.
fn every_skip(sample: &mut Recorder) {
    for writer in [empties(), nested()] {
        let root = sample.tree_alone(writer);
        for path in all_paths(&sample.model, root) {
            for tokens in [false, true] {
                let places = walk(sample, tokens, &path, &[]);
                for place in 0..places {
                    walk(sample, tokens, &path, &[place]);
                }
            }
        }
    }
}

/// Two skips at every pair of places.
fn pairs_of_skips(sample: &mut Recorder) {
    let root = sample.tree_alone(tree_t());
    let whole = path(root, &[]);
    let places = walk(sample, true, &whole, &[]);
    for first in 0..places {
        for second in first..places {
            walk(sample, true, &whole, &[first, second]);
        }
    }
}

/// A refused start empties its slot, and a new store all of them.
fn empty_slots(sample: &mut Recorder) {
    let root = sample.tree_alone(tree_t());
    let nowhere = [
        path(root, &[0]),
        path(root, &[3]),
        path(root, &[0, 0]),
        path(root, &[0; 65]),
        path(0, &[]),
        path(root + 1, &[]),
        path(u32::MAX, &[]),
    ];
    for (slot, wrong) in nowhere.iter().enumerate() {
        let slot = slot % SLOTS;
        sample.begin(slot, true, &path(root, &[]));
        sample.next(slot, 1);
        sample.begin(slot, true, wrong);
        sample.next(slot, 1);
        sample.skip(slot);
    }
    sample.begin(2, false, &path(root, &[]));
    sample.tree_alone(tree_t());
    (0..SLOTS).for_each(|slot| sample.next(slot, 1));
}

/// Four walks at once, over runs and edits.
fn kept(sample: &mut Recorder) {
    let root = sample.tree_alone(nested());
    for (slot, indexes) in [&[][..], &[3], &[2], &[]].into_iter().enumerate() {
        sample.begin(slot, slot != 3, &path(root, indexes));
    }
    for slot in 0..SLOTS {
        sample.next(slot, slot + 1);
    }
    sample.tree(tree_t());
    sample.skip(0);
    (0..SLOTS).for_each(|slot| sample.next(slot, 2));
    let (node, index, new) = (root, 0, 0);
    sample.put(Call::ReplaceChild { node, index, new });
    sample.skip(1);
    sample.skip(1);
    (0..SLOTS).for_each(|slot| sample.next(slot, 2));
    sample.put(Call::RemoveChild { node, index });
    sample.begin(2, true, &path(root, &[3, 0]));
    sample.skip(2);
    (0..SLOTS).for_each(|slot| sample.next(slot, 3));
    (0..SLOTS).for_each(|slot| sample.skip(slot));
    (0..SLOTS).for_each(|slot| sample.next(slot, 9));
}

/// 64 nodes in one another: from the top, the middle and the bottom.
fn deep(sample: &mut Recorder) {
    let root = sample.tree_alone(chain(64));
    for depth in [0, 32, 63] {
        walk(sample, true, &path(root, &vec![0; depth]), &[]);
    }
    walk(sample, false, &path(root, &[]), &[64, 65]);
    walk(sample, false, &path(root, &[0]), &[20]);
    walk(sample, true, &path(root, &[0; 64]), &[]);
}

/// Many steps at once: none, some, up to the end, past it and over a skip; more than the program takes at a time.
fn many(sample: &mut Recorder) {
    let root = sample.tree_alone(nested());
    for tokens in [false, true] {
        for count in [0, 1, 2, 3, 7, u32::MAX] {
            sample.begin(1, tokens, &path(root, &[]));
            for _ in 0..3 {
                sample.many(1, count);
            }
            sample.skip(1);
            sample.many(1, count);
            sample.next(1, 1);
        }
    }
    let root = sample.tree_alone(chain(64));
    for (depth, count) in [(0, 63), (0, 64), (0, 65), (1, 128), (32, 64), (63, 5)] {
        sample.begin(0, true, &path(root, &vec![0; depth]));
        for _ in 0..3 {
            sample.many(0, count);
        }
    }
    sample.tree_alone(tree_t());
    sample.many(0, 4);
    sample.many(3, 0);
}

/// Walks over many children of which the last is a node.
pub fn along(sample: &mut Recorder, whole: &Path) {
    walk(sample, false, whole, &[]);
    walk(sample, false, whole, &[1]);
    for before_skip in [1, 2, 3] {
        sample.begin(0, true, whole);
        sample.next(0, before_skip);
        sample.skip(0);
        sample.next(0, 4);
    }
}
