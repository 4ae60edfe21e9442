//! Random edits.

use super::script::Writer;
use crate::{
    reply::Reply,
    script::{Call, Path, MAX_NEW},
};

impl Writer {
    pub fn edit(&mut self) {
        let node = self.node();
        let count = self.model.children(node).map_or(0, <[u32]>::len);
        let index = match self.random.below(12) {
            0 => self.random.word(),
            1 => count as u32,
            _ => self.random.below(count + 1) as u32,
        };
        let call = match self.random.below(10) {
            0 | 1 => Call::ReplaceChild {
                node,
                index,
                new: self.number(),
            },
            2 | 3 => Call::InsertChild {
                node,
                index,
                new: self.number(),
            },
            4 => Call::RemoveChild { node, index },
            5 | 6 => self.splice(node, count),
            _ => self.replace_with(),
        };
        self.put(call);
    }

    fn splice(&mut self, node: u32, count: usize) -> Call {
        let start = self.random.below(count + 2);
        let end = match self.random.chance(90) {
            true => start + self.random.below((count + 2).saturating_sub(start).max(1)),
            false => self.random.below(count + 2),
        };
        let length = match self.random.below(40) {
            0 => self.random.between(4_090, MAX_NEW),
            1 => self.random.below(200),
            _ => self.random.below(5),
        };
        let repeated = self.number();
        let new = (0..length).map(|_| match length {
            0..=4 => self.number(),
            _ => repeated,
        });
        Call::SpliceChildren {
            node,
            start: start as u32,
            end: end as u32,
            new: new.collect(),
        }
    }

    /// A replacement, mostly of the kind and sort that it must have.
    fn replace_with(&mut self) -> Call {
        let path = self.path();
        let mut new = self.number();
        for _ in 0..20 {
            if self.is_alike(&path, new) || self.random.chance(5) {
                break;
            }
            new = self.number();
        }
        if self.random.chance(10) {
            new = self.model.number_at(&path).unwrap_or(new);
        }
        Call::ReplaceWith { new, path }
    }

    fn is_alike(&self, path: &Path, new: u32) -> bool {
        let model = &self.model;
        model.number_at(path).is_some_and(|old| {
            model.kind(old) == model.kind(new)
                && model.children(old).is_some() == model.children(new).is_some()
        })
    }

    /// Puts a node over itself twice, or more often, again and again: sizes, lengths and heights
    /// reach their limits.
    pub fn grow(&mut self) {
        let times = *self.random.pick(&[2, 2, 2, 3, 60]);
        let mut node = self.node();
        for _ in 0..self.random.between(1, 24) {
            let count = self.model.children(node).map_or(0, <[u32]>::len);
            let reply = self.put(Call::SpliceChildren {
                node,
                start: 0,
                end: count as u32,
                new: vec![node; times],
            });
            match reply {
                Reply::Edited {
                    outcome: Ok(number),
                    ..
                } => node = number,
                _ => return self.past_limit(node),
            }
        }
    }

    /// Edits that put a node in itself, which is about as large as can be.
    fn past_limit(&mut self, node: u32) {
        let index = self.random.below(4) as u32;
        let new = node;
        self.put(Call::ReplaceChild { node, index, new });
        self.put(Call::InsertChild { node, index, new });
        let path = self.path_under(node);
        self.put(Call::ReplaceWith { new, path });
    }
}
