//! Edits of the stored sample: each with each of its refusals, at and past every limit.

use super::{chain, nested, path, tree_t, Recorder, MORE};
use crate::{generate::exhaust::all_paths, reply::Reply, script::Call, sheet::SheetWriter};

pub fn edits(sample: &mut Recorder) {
    of_tree_t(sample);
    all_replacements(sample);
    order_of_refusals(sample);
    not_found_by_events(sample);
    little_room(sample);
    all_or_none(sample);
    children(sample);
    height(sample);
    height_before_room(sample);
    size(sample);
    length(sample);
}

/// The edits in short: each puts one call and answers the number, if there is one.
impl Recorder {
    fn edit(&mut self, call: Call) -> Option<u32> {
        match self.put(call) {
            Reply::Edited { outcome, .. } => outcome.ok(),
            _ => unreachable!("an edit's reply"),
        }
    }

    fn replace_child(&mut self, node: u32, index: u32, new: u32) -> Option<u32> {
        self.edit(Call::ReplaceChild { node, index, new })
    }

    fn insert_child(&mut self, node: u32, index: u32, new: u32) -> Option<u32> {
        self.edit(Call::InsertChild { node, index, new })
    }

    fn remove_child(&mut self, node: u32, index: u32) -> Option<u32> {
        self.edit(Call::RemoveChild { node, index })
    }

    fn splice(&mut self, node: u32, start: u32, end: u32, new: &[u32]) -> Option<u32> {
        let new = new.to_vec();
        self.edit(Call::SpliceChildren {
            node,
            start,
            end,
            new,
        })
    }

    fn replace_with(&mut self, new: u32, root: u32, indexes: &[u32]) -> Option<u32> {
        let path = path(root, indexes);
        self.edit(Call::ReplaceWith { new, path })
    }
}

/// All indexes and ranges of T and some past it, also of a token and of no element.
fn of_tree_t(sample: &mut Recorder) {
    let root = sample.tree_alone(tree_t());
    for index in [0, 1, 2, 3, 4, u32::MAX] {
        for new in [0, root, u32::MAX] {
            sample.replace_child(root, index, new);
            sample.insert_child(root, index, new);
        }
        sample.remove_child(root, index);
    }
    sample.all_records();
    sample.tree_alone(tree_t());
    for start in 0..=4 {
        for end in 0..=4 {
            sample.splice(root, start, end, &[]);
            sample.splice(root, start, end, &[2, root]);
        }
    }
    sample.splice(root, 0, u32::MAX, &[0]);
    sample.splice(root, u32::MAX, u32::MAX, &[0]);
    let past = sample.record_count();
    for node in [0, past, u32::MAX] {
        sample.replace_child(node, 0, 1);
        sample.insert_child(node, 0, 1);
        sample.remove_child(node, 0);
        sample.splice(node, 0, 0, &[]);
    }
    for new in [past, u32::MAX] {
        sample.replace_child(root, 9, new);
        sample.insert_child(root, 0, new);
        sample.splice(root, 0, 1, &[0, new]);
        sample.replace_with(new, root, &[0]);
    }
    sample.all_records();
}

/// Every path of nodes in nodes by every number: 4, 6, and what is made.
fn all_replacements(sample: &mut Recorder) {
    let root = sample.tree_alone(nested());
    let made = sample.record_count();
    for path in all_paths(&sample.model, root) {
        for new in 0..made {
            let path = path.clone();
            sample.put(Call::ReplaceWith { new, path });
        }
    }
    for root in [0, u32::MAX] {
        sample.replace_with(0, root, &[]);
    }
    sample.replace_with(root, root, &[0; 65]);
    sample.all_records();
}

/// The lowest number is given where several apply.
fn order_of_refusals(sample: &mut Recorder) {
    sample.store([4, 3, 5]);
    let root = sample.tree(tree_t());
    let many = [0; 20];
    // 4 before 5, 6 and 15
    sample.insert_child(root, 9, 9);
    sample.remove_child(0, 9);
    sample.splice(root, 2, 1, &[0, 9]);
    sample.replace_with(9, root, &[0]);
    sample.replace_with(1, root, &[3]);
    // 5 before 15
    sample.insert_child(root, 4, 0);
    sample.remove_child(root, 3);
    sample.splice(root, 2, 1, &many);
    // 6 before 15: another kind, a node for a token, a token for a node
    sample.replace_with(1, root, &[0]);
    sample.replace_with(root, root, &[0]);
    sample.replace_with(0, root, &[]);
    // 15 alone, and at the root nothing is made
    sample.replace_child(root, 3, 0);
    sample.insert_child(root, 3, 0);
    sample.remove_child(root, 2);
    sample.splice(root, 0, 3, &[]);
    sample.replace_with(0, root, &[0]);
    sample.replace_with(root, root, &[]);
    sample.all_records();
}

/// A run makes its own record of what an edit has made, and finds its own again.
fn not_found_by_events(sample: &mut Recorder) {
    let root = sample.tree_alone(tree_t());
    let shorter = sample.remove_child(root, 2).expect("a node");
    let alike = || {
        let start = SheetWriter::default().start(1);
        start.token(2, b"BS").token(3, b" ").finish()
    };
    let own = sample.tree(alike());
    sample.tree(alike());
    // over the record that the edit made, and over that of the run
    for inner in [shorter, own] {
        sample.splice(root, 0, 3, &[inner, inner]);
        let (left, right) = (path(inner, &[]), path(own, &[]));
        sample.put(Call::SameElement { left, right });
    }
    sample.replace_child(root, 3, 0);
    sample.tree(tree_t());
    sample.all_records();
}

/// An edit by the calls of T's numbers.
type Edit = fn(&mut Recorder) -> Option<u32>;

/// Each edit of T in a store that has just room for it, and where one record or place lacks.
fn little_room(sample: &mut Recorder) {
    let edits: [(Edit, u32); 6] = [
        (|it| it.replace_child(3, 0, 1), 3),
        (|it| it.replace_child(3, 3, 1), 3),
        (|it| it.insert_child(3, 3, 0), 4),
        (|it| it.remove_child(3, 2), 2),
        (|it| it.splice(3, 1, 2, &[0, 3]), 4),
        (|it| it.replace_with(0, 3, &[0]), 3),
    ];
    for (edit, places) in edits {
        for (records, places) in [(1, places), (0, places), (1, places - 1)] {
            sample.store([4 + records, 3 + places, 5]);
            sample.tree(tree_t());
            edit(sample);
            edit(sample);
            sample.all_records();
        }
    }
}

/// A replacement three levels down with too little room for the top, the middle or all of them.
fn all_or_none(sample: &mut Recorder) {
    for (records, places) in [(2, 6), (1, 6), (0, 6), (2, 5), (2, 1), (2, 0)] {
        let mut counts = Recorder::default();
        let root = counts.tree(nested());
        let made = counts.model.counts();
        let lent = [made.records as u32 + records, made.places as u32 + places];
        sample.store([lent[0], lent[1], 9]);
        sample.tree(nested());
        sample.replace_with(0, root, &[3, 0, 0]);
        sample.replace_with(2, root, &[3, 0]);
        sample.replace_with(0, root, &[0, 0]);
        sample.all_records();
    }
}

/// 4,096 and 4,097 children, then all child places in use.
fn children(sample: &mut Recorder) {
    sample.store(MORE);
    let root = sample.tree(tree_t());
    sample.splice(root, 0, 3, &[0; 4_097]);
    let most = sample.splice(root, 0, 3, &[0; 4_096]).expect("a node");
    sample.insert_child(most, 0, 0);
    sample.insert_child(most, 4_097, 0);
    sample.splice(most, 4_096, 4_096, &[1]);
    sample.splice(most, 4_095, 4_096, &[1, 2]);
    sample.replace_child(most, 4_096, 0);
    let fewer = sample.remove_child(most, 4_095).expect("a node");
    sample.put(Call::Element { number: most });
    sample.put(Call::Element { number: fewer });
    // 4,094 places are left
    sample.insert_child(fewer, 4_095, 1);
    sample.replace_child(fewer, 0, 1);
    sample.remove_child(fewer, 4_094);
    sample.remove_child(root, 0);
    sample.replace_with(0, root, &[0]);
    sample.replace_with(most, root, &[]);
    let childless = sample.splice(root, 0, 3, &[]).expect("a node");
    sample.insert_child(childless, 0, 0);
    sample.replace_child(childless, 0, 0);
}

/// Heights 64 and 65, also of one copied with the new element left out.
fn height(sample: &mut Recorder) {
    let root = sample.tree_alone(chain(64));
    sample.insert_child(root, 0, root - 1);
    sample.insert_child(root, 0, root);
    sample.replace_child(root, 0, root);
    sample.replace_child(root, 1, root);
    sample.splice(root, 0, 1, &[0, root]);
    sample.splice(root, 0, 1, &[0, root - 1]);
    let lowest = [0; 63];
    sample.replace_with(1, root, &lowest);
    sample.replace_with(0, root, &lowest);
    sample.replace_with(root, root, &[0]);
    sample.replace_with(root - 1, root, &[0]);
    sample.all_records();
}

/// Too high at the top and no room at the bottom: 14.
fn height_before_room(sample: &mut Recorder) {
    sample.store([65, 70, 0]);
    let root = sample.tree(chain(64));
    sample.replace_with(2, root, &[0; 62]);
    sample.replace_with(root, root, &[0; 62]);
    sample.replace_with(1, root, &[0; 62]);
    sample.replace_with(root - 1, root, &[0]);
    sample.replace_with(root, root, &[0]);
    sample.replace_with(root - 1, root, &[0]);
    sample.replace_with(root, root, &[]);
    sample.insert_child(root, 0, root);
    sample.insert_child(root, 0, 0);
    sample.all_records();
}

/// 1,048,576 elements and one more, by nodes over two of the node before.
fn size(sample: &mut Recorder) {
    let childless = sample.tree_alone(SheetWriter::default().start(1).finish());
    let mut node = childless;
    for count in [0].into_iter().chain([2; 18]) {
        node = sample.splice(node, 0, count, &[node; 2]).expect("a node");
    }
    let most = sample.insert_child(childless, 0, node).expect("a node");
    sample.put(Call::Element { number: most });
    sample.insert_child(childless, 0, most);
    sample.insert_child(most, 1, childless);
    sample.splice(node, 0, 1, &[node]);
    sample.replace_child(node, 1, node);
    // too large at the lowest ancestor, and at the top one alone
    sample.replace_with(node, most, &[0, 0]);
    let pair = sample
        .insert_child(childless, 0, childless)
        .expect("a node");
    sample.replace_with(pair, most, &[0; 20]);
    sample.replace_with(childless, most, &[0, 0]);
    sample.all_records();
}

/// 65,537 times 65,535 bytes are 4,294,967,295; then a byte more, and an empty token more.
fn length(sample: &mut Recorder) {
    let third = SheetWriter::default().start(1).token(2, &[b'a'; 21_845]);
    let root = sample.tree_alone(third.token(2, b"b").token(2, b"").finish());
    let mut node = sample.splice(root, 0, 3, &[0; 48]).expect("a node");
    for count in [48, 16, 16] {
        node = sample.splice(node, 0, count, &[node; 16]).expect("a node");
    }
    let most = sample.splice(node, 16, 16, &[0; 3]).expect("a node");
    sample.put(Call::Element { number: most });
    sample.insert_child(most, 0, 1);
    sample.replace_child(most, 16, node);
    sample.splice(most, 0, 0, &[2, 1]);
    sample.replace_with(node, most, &[0, 0, 0]);
    let with_empty = sample.insert_child(most, 19, 2).expect("a node");
    super::texts::far_end(sample, &path(with_empty, &[]));
    for number in 1..=sample.record_count() {
        sample.put(Call::Record { number });
    }
}
