//! Random numbers, paths, offsets and ranges: mostly right ones, some wrong on purpose.

use super::script::Writer;
use crate::{
    reply::{Element, Reply},
    script::{Call, Path, Step},
};

impl Writer {
    /// The number of some element, now and then of none.
    pub fn number(&mut self) -> u32 {
        let records = self.model.counts().records;
        if records == 0 || self.random.chance(2) {
            return match self.random.chance(50) {
                true => records as u32,
                false => self.random.word(),
            };
        }
        // The latest records are the roots of runs and the results of edits.
        let recent = records.min(6);
        match self.random.chance(60) {
            true => (records - 1 - self.random.below(recent)) as u32,
            false => self.random.below(records) as u32,
        }
    }

    /// The number of a node, if one turns up: mostly the largest of some.
    pub fn node(&mut self) -> u32 {
        let tries = *self.random.pick(&[1, 4, 8]);
        let mut best = self.number();
        for _ in 1..tries {
            let number = self.number();
            let is_node = self.model.children(number).is_some();
            if is_node && self.model.size(number) > self.model.size(best) {
                best = number;
            }
        }
        best
    }

    pub fn path(&mut self) -> Path {
        let root = self.node();
        self.path_under(root)
    }

    pub fn path_under(&mut self, root: u32) -> Path {
        let go_on = *self.random.pick(&[30, 70, 95, 100]);
        let mut path = self.path_down(root, go_on);
        if self.random.chance(5) {
            self.spoil(&mut path);
        }
        path
    }

    /// A path that goes on down with this chance, and so mostly to a token if it is 100.
    fn path_down(&mut self, root: u32, go_on: usize) -> Path {
        let mut indexes = Vec::new();
        let mut at = root;
        while let Some(count) = self.model.children(at).map(<[u32]>::len) {
            if count == 0 || !self.random.chance(go_on) {
                break;
            }
            let index = match self.random.below(6) {
                0 => 0,
                1 => count - 1,
                _ => self.random.below(count),
            };
            indexes.push(index as u32);
            at = self.model.children(at).map_or(at, |it| it[index]);
        }
        Path { root, indexes }
    }

    /// A path to what the step wants to be put to, as a rule.
    pub fn path_for(&mut self, step: Step, root: u32) -> Path {
        if self.random.chance(15) {
            return self.path_under(root);
        }
        match step {
            Step::NextToken | Step::PrevToken => self.path_down(root, 100),
            Step::FirstChild
            | Step::LastChild
            | Step::FirstChildOrToken
            | Step::LastChildOrToken
            | Step::NextSibling
            | Step::PrevSibling => self.node_path_under(root),
            _ => self.path_under(root),
        }
    }

    /// A path that leads to a node, if one turns up.
    pub fn node_path(&mut self) -> Path {
        let root = self.node();
        self.node_path_under(root)
    }

    fn node_path_under(&mut self, root: u32) -> Path {
        let mut path = self.path_under(root);
        while self.element(&path).is_some_and(|it| !it.is_node) && !self.random.chance(4) {
            path.indexes.pop();
        }
        path
    }

    /// Makes a path wrong: an index too far, one too many, or far too many.
    fn spoil(&mut self, path: &mut Path) {
        match self.random.below(4) {
            0 => path.indexes.push(self.random.word()),
            1 => path.indexes.push(0),
            2 => match path.indexes.last_mut() {
                Some(last) => *last = last.wrapping_add(self.random.between(1, 3) as u32),
                None => path.root = self.random.word(),
            },
            _ => {
                let depth = self.random.between(63, 66);
                path.indexes.resize(depth, 0);
            }
        }
    }

    /// What a path names.
    pub fn element(&mut self, path: &Path) -> Option<Element> {
        let here = Call::Step {
            step: Step::Here,
            path: path.clone(),
        };
        match self.model.answer(&here) {
            Reply::Element(element) => Some(element),
            _ => None,
        }
    }

    /// An offset to put to the path's element: an end of something in it, or near one.
    pub fn offset(&mut self, path: &Path) -> u32 {
        let inner = Path {
            root: path.root,
            indexes: self.deeper(path),
        };
        let Some(element) = self.element(&inner) else {
            return self.random.word();
        };
        let end = match self.random.chance(50) {
            true => element.start,
            false => element.end,
        };
        match self.random.below(12) {
            0 => end.saturating_sub(1),
            1 => end.saturating_add(1),
            2 => self.random.word(),
            _ => end,
        }
    }

    /// A range to put to the path's element, now and then of wrong order.
    pub fn range(&mut self, path: &Path) -> (u32, u32) {
        let start = self.offset(path);
        let end = match self.random.chance(40) {
            true => start,
            false => self.offset(path),
        };
        match self.random.chance(95) {
            true => (start.min(end), start.max(end)),
            false => (start, end),
        }
    }

    /// The path's indexes and more of them at random.
    fn deeper(&mut self, path: &Path) -> Vec<u32> {
        let Some(number) = self.model.number_at(path) else {
            return path.indexes.clone();
        };
        let below = self.path_under(number);
        [&path.indexes[..], &below.indexes].concat()
    }
}
