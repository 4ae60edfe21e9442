//! All edits of a small tree.

use super::{Recorder, Tree};
use crate::{
    reply::{Counts, Reply},
    script::Call,
};

/// How many records edits add before the store is begun anew.
const GROWTH: u32 = 8;

/// Every edit of every element by every element, at all indexes and one past the children, each
/// followed by all records. When edits have added some, the sheet is run again, which must not find
/// them, and the store is begun anew. Each accepted edit is put once more where it has just room
/// enough, and where one record or one child place is lacking.
pub fn calls(tree: &Tree) -> Vec<Vec<Call>> {
    let mut edits = Edits {
        tree,
        recorder: tree.recorder(),
        parts: Vec::new(),
    };
    edits.replace_with();
    for node in 0..=edits.made() {
        edits.of_node(node);
    }
    edits.begin_anew();
    edits.parts
}

struct Edits<'a> {
    tree: &'a Tree<'a>,
    recorder: Recorder,
    /// The calls on the stores before.
    parts: Vec<Vec<Call>>,
}

impl Edits<'_> {
    /// The count of records that the run made.
    fn made(&self) -> u32 {
        self.tree.model.counts().records as u32
    }

    /// A number of the run's, or the first that is not there now.
    fn number(&self, number: u32) -> u32 {
        match number < self.made() {
            true => number,
            false => self.recorder.record_count(),
        }
    }

    fn put(&mut self, edit: Call) {
        let before = self.recorder.model.counts();
        let reply = self.recorder.put(edit.clone());
        self.recorder.all_records();
        if let Reply::Edited {
            outcome: Ok(_),
            store,
        } = reply
        {
            self.in_little_room(&edit, before, store);
        }
        if self.recorder.record_count() >= self.made() + GROWTH {
            self.begin_anew();
        }
    }

    fn begin_anew(&mut self) {
        self.recorder.put(self.tree.run.clone());
        self.recorder.all_records();
        let before = std::mem::replace(&mut self.recorder, self.tree.recorder());
        self.parts.push(before.calls);
    }

    /// An accepted edit in stores that have room for what it adds, and for one less of it.
    fn in_little_room(&mut self, edit: &Call, before: Counts, after: Counts) {
        let run = self.tree.model.counts();
        let records = run.records + after.records - before.records;
        let places = run.places + after.places - before.places;
        let lacking = [
            (records, places),
            (records.saturating_sub(1), places),
            (records, places.saturating_sub(1)),
        ];
        for (records, places) in lacking {
            if records < run.records || places < run.places {
                continue;
            }
            let mut recorder = Recorder::default();
            recorder.store([records as u32, places as u32, run.bytes as u32]);
            recorder.put(self.tree.run.clone());
            recorder.put(edit.clone());
            recorder.all_records();
            self.parts.push(recorder.calls);
        }
    }

    fn replace_with(&mut self) {
        for path in &self.tree.paths {
            for new in 0..=self.made() {
                let (new, path) = (self.number(new), path.clone());
                self.put(Call::ReplaceWith { new, path });
            }
        }
    }

    fn of_node(&mut self, node: u32) {
        let past_last = self.tree.model.children(node).map_or(0, <[u32]>::len) as u32 + 1;
        for index in 0..=past_last {
            for new in 0..=self.made() {
                self.replace_child(node, index, new);
                self.insert_child(node, index, new);
            }
            self.remove_child(node, index);
            for end in 0..=past_last {
                self.splices(node, index, end);
            }
        }
    }

    fn replace_child(&mut self, node: u32, index: u32, new: u32) {
        let (node, new) = (self.number(node), self.number(new));
        self.put(Call::ReplaceChild { node, index, new });
    }

    fn insert_child(&mut self, node: u32, index: u32, new: u32) {
        let (node, new) = (self.number(node), self.number(new));
        self.put(Call::InsertChild { node, index, new });
    }

    fn remove_child(&mut self, node: u32, index: u32) {
        let node = self.number(node);
        self.put(Call::RemoveChild { node, index });
    }

    /// A range exchanged for no child, one child and two.
    fn splices(&mut self, node: u32, start: u32, end: u32) {
        self.splice(node, start, end, &[]);
        for first in 0..=self.made() {
            self.splice(node, start, end, &[first]);
            for second in 0..=self.made() {
                self.splice(node, start, end, &[first, second]);
            }
        }
    }

    fn splice(&mut self, node: u32, start: u32, end: u32, new: &[u32]) {
        self.put(Call::SpliceChildren {
            node: self.number(node),
            start,
            end,
            new: new.iter().map(|it| self.number(*it)).collect(),
        });
    }
}
