//! All walks of a small tree.

use super::Tree;
use crate::{
    generate::recorder::Recorder,
    reply::Reply,
    script::{Call, Path, SLOTS},
};

/// Both walks from every path, without a skip, with one at every place and with two at every pair
/// of places. Each is carried on until it has said twice that it has ended.
pub(super) fn calls(tree: &Tree) -> Vec<Vec<Call>> {
    tree.paths
        .iter()
        .map(|path| from_path(tree, path))
        .collect()
}

fn from_path(tree: &Tree, path: &Path) -> Vec<Call> {
    let mut recorder = tree.recorder();
    for tokens in [false, true] {
        // The last place is after the first `ended`.
        let places = walk(&mut recorder, tokens, path, &[]);
        for first in 0..places {
            walk(&mut recorder, tokens, path, &[first]);
            for second in first..places {
                walk(&mut recorder, tokens, path, &[first, second]);
            }
        }
    }
    recorder.calls
}

/// A walk with a skip after so many events for each of the skips, which stand in order. Answers how
/// many calls for the next event were made.
pub fn walk(recorder: &mut Recorder, tokens: bool, path: &Path, skips: &[usize]) -> usize {
    let slot = skips.iter().sum::<usize>() % SLOTS;
    let path = path.clone();
    recorder.put(Call::WalkBegin { slot, tokens, path });
    let (mut place, mut ended) = (0, 0);
    let mut skips = skips.iter().peekable();
    while ended < 2 || skips.peek().is_some() {
        while skips.next_if(|it| **it == place).is_some() {
            recorder.put(Call::WalkSkip { slot });
        }
        match recorder.put(Call::WalkNext { slot }) {
            Reply::Ended => ended += 1,
            Reply::NoWalk => {
                recorder.put(Call::WalkSkip { slot });
                return 0;
            }
            _ => {}
        }
        place += 1;
    }
    place
}
