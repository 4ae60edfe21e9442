//! Queries of the stored sample.

use super::{
    after_empty_token, empties, first_bytes, nested, path, texts, tokens, tree_t, walks, Recorder,
    MOST,
};
use crate::{
    generate::{exhaust::all_queries, script, Profile},
    script::{Call, Path, Step},
    sheet::SheetWriter,
};

/// How many random scripts are cut to how many bytes.
const SCRIPTS: u64 = 40;
const SCRIPT_BYTES: usize = 1_000;

pub fn queries(sample: &mut Recorder) {
    for writer in [tree_t(), after_empty_token(), empties(), nested()] {
        let root = sample.tree_alone(writer);
        sample.all(root);
    }
    nowhere(sample);
    two_roots(sample);
    deep(sample);
    wide(sample);
    for seed in 1..=SCRIPTS {
        sample.store(MOST);
        for call in first_bytes(script(seed, Profile::Queries), SCRIPT_BYTES) {
            sample.put_settled(call);
        }
    }
}

impl Recorder {
    /// All queries of a tree, but few of what is refused: ranges put to a token, paths that lead nowhere
    /// compared with each other.
    fn all(&mut self, root: u32) {
        for call in all_queries(&self.model, root) {
            let is_kept = match &call {
                Call::TokenAtOffset { offset, path } => *offset == 0 || self.is_node(path),
                Call::ChildOrTokenAtRange { start, end, path }
                | Call::CoveringElement { start, end, path } => {
                    *end == 0 && *start < 2 || self.is_node(path)
                }
                Call::SameElement { left, right } => {
                    let is_there = |it: &Path| self.model.number_at(it).is_some();
                    left.indexes.is_empty() || is_there(left) && is_there(right)
                }
                _ => true,
            };
            if is_kept {
                self.put_settled(call);
            }
        }
    }

    fn steps(&mut self, path: &Path) {
        for step in Step::ALL {
            let path = path.clone();
            self.put(Call::Step { step, path });
        }
    }

    fn same(&mut self, left: &Path, right: &Path) {
        let (left, right) = (left.clone(), right.clone());
        self.put(Call::SameElement { left, right });
    }

    /// A range put to both calls that take one, and its ends as offsets.
    #[rustfmt::skip]
    fn range(&mut self, path: &Path, start: u32, end: u32) {
        self.put(Call::ChildOrTokenAtRange { start, end, path: path.clone() });
        self.put(Call::CoveringElement { start, end, path: path.clone() });
        self.put(Call::TokenAtOffset { offset: start, path: path.clone() });
        self.put(Call::TokenAtOffset { offset: end, path: path.clone() });
    }
}

/// Refusal 4 of roots and indexes, and of a token where a node is wanted.
fn nowhere(sample: &mut Recorder) {
    let root = sample.tree_alone(tree_t());
    let records = sample.model.counts().records as u32;
    for root in [0, records, u32::MAX] {
        for indexes in [&[][..], &[0], &[0, 0]] {
            sample.steps(&path(root, indexes));
            sample.range(&path(root, indexes), 0, 1);
        }
    }
    for indexes in [&[3][..], &[u32::MAX], &[0, 0], &[1, u32::MAX]] {
        sample.steps(&path(root, indexes));
        sample.range(&path(root, indexes), 1, 0);
        sample.same(&path(root, indexes), &path(root, &[]));
        sample.same(&path(root, &[]), &path(root, indexes));
    }
    let whole = path(root, &[]);
    for (start, end) in [
        (5, 5),
        (5, 6),
        (6, 6),
        (6, 5),
        (0, u32::MAX),
        (u32::MAX, u32::MAX),
        (u32::MAX, 0),
    ] {
        sample.range(&whole, start, end);
    }
    for number in [0, root, records, u32::MAX] {
        for under in [0, root, records, u32::MAX] {
            let root = under;
            sample.put_settled(Call::WhereIs { number, root });
        }
    }
    // a store without a record
    sample.store([0, 0, 0]);
    sample.steps(&path(0, &[]));
    sample.put_settled(Call::WhereIs { number: 0, root: 0 });
}

/// One tree within another, and nodes that are spelled alike and share no record.
fn two_roots(sample: &mut Recorder) {
    let inner = |it: SheetWriter| it.start(2).token(3, b"a").token(4, b"").finish();
    let root = sample.tree_alone(inner(SheetWriter::default()));
    let first = inner(SheetWriter::default().start(1)).token(5, b"");
    let other = sample.tree(inner(first).finish());
    let alike = |it: SheetWriter| (0..4).fold(it.start(6), |it, _| it.token(4, b"")).finish();
    let third = sample.tree(alike(alike(SheetWriter::default().start(1))).finish());
    let paths = [
        path(root, &[]),
        path(root, &[0]),
        path(root, &[1]),
        path(other, &[]),
        path(other, &[0]),
        path(other, &[0, 0]),
        path(other, &[0, 1]),
        path(other, &[2]),
        path(other, &[2, 0]),
        path(third, &[0]),
        path(third, &[1]),
        path(third, &[0, 1]),
        path(third, &[1, 3]),
    ];
    for left in &paths {
        for right in &paths {
            sample.same(left, right);
        }
    }
    for number in 0..=sample.model.counts().records as u32 {
        for root in [root, other, third] {
            sample.put_settled(Call::WhereIs { number, root });
        }
    }
}

/// 64 nodes in one another, with and without tokens beside the chain: 64 indexes lead to a token.
fn deep(sample: &mut Recorder) {
    let started = |it: SheetWriter, _| it.start(1).token(2, b"");
    let open = (0..64).fold(SheetWriter::default(), started);
    let closed = (0..63).fold(open.token(3, b"a"), |it, _| it.finish().token(4, b"b"));
    let root = sample.tree_alone(closed.finish());
    let spine = vec![1; 64];
    for depth in [1, 32, 62, 63, 64] {
        sample.steps(&path(root, &spine[..depth]));
        sample.range(&path(root, &spine[..depth]), 0, 0);
        sample.range(&path(root, &spine[..depth]), 0, 1);
        sample.range(&path(root, &spine[..depth]), 1, 2);
    }
    let last = path(root, &[&spine[..63], &[0]].concat());
    let after = path(root, &[&spine[..62], &[2]].concat());
    for it in [&last, &after] {
        sample.steps(it);
        sample.same(it, &path(root, &[0]));
    }
    for depth in [65, 66] {
        let long = path(root, &vec![1; depth]);
        sample.steps(&long);
        sample.range(&long, 0, 0);
        sample.same(&long, &path(root, &[]));
        sample.same(&path(root, &[]), &long);
    }
    for number in 0..=sample.model.counts().records as u32 {
        sample.put_settled(Call::WhereIs { number, root });
    }
    let chain = (0..64).fold(SheetWriter::default(), |it, _| it.start(0));
    let root = sample.tree_alone((0..64).fold(chain, |it, _| it.finish()));
    for depth in [0, 62, 63, 64] {
        sample.steps(&path(root, &vec![0; depth]));
        sample.range(&path(root, &vec![0; depth]), 0, 0);
    }
}

/// A node over 4,000 children of which the last is a node.
fn wide(sample: &mut Recorder) {
    let mut writer = tokens(3_999, |ordinal| ordinal as u16);
    writer.events.pop();
    let root = sample.tree_alone(writer.start(7).finish().finish());
    let whole = path(root, &[]);
    sample.steps(&whole);
    for index in [0, 1, 1_999, 3_998, 3_999, 4_000] {
        sample.steps(&path(root, &[index]));
        sample.range(&whole, index, index);
        sample.range(&whole, index, index.saturating_add(1));
        sample.range(&whole, index, index.saturating_add(2));
    }
    for number in [0, 1_998, 3_998, 3_999, root] {
        sample.put_settled(Call::WhereIs { number, root });
    }
    walks::along(sample, &whole);
    texts::along(sample, &whole);
}
