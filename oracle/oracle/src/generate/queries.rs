//! Random reading calls, walks and texts.

use super::script::Writer;
use crate::{
    reply::Reply,
    script::{Call, Path, Step, SLOTS},
};

/// Texts of larger trees are read seldom: every call on them goes over all their tokens.
const LARGE: u32 = 3_000;

impl Writer {
    pub fn steps(&mut self) {
        let root = self.node();
        for _ in 0..self.random.between(1, 12) {
            let step = *self.random.pick(&Step::ALL);
            let path = self.path_for(step, root);
            self.put(Call::Step { step, path });
        }
    }

    pub fn offsets(&mut self) {
        for _ in 0..self.random.between(1, 6) {
            let path = self.node_path();
            let (start, end) = self.range(&path);
            let call = match self.random.below(3) {
                0 => Call::TokenAtOffset {
                    offset: start,
                    path,
                },
                1 => Call::ChildOrTokenAtRange { start, end, path },
                _ => Call::CoveringElement { start, end, path },
            };
            self.put(call);
        }
    }

    pub fn identities(&mut self) {
        let left = self.path();
        let right = match self.random.chance(70) {
            true => self.path_under(left.root),
            false => self.path(),
        };
        let number = match self.random.chance(50) {
            true => self.model.number_at(&left).unwrap_or(0),
            false => self.number(),
        };
        let root = match self.random.chance(50) {
            true => left.root,
            false => self.number(),
        };
        self.put(Call::SameElement { left, right });
        self.put(Call::WhereIs { number, root });
    }

    pub fn records(&mut self) {
        let number = self.number();
        self.put(Call::Element { number });
        self.put(Call::Mark { number });
        self.put(Call::Record { number });
    }

    /// Begins a walk or carries one on.
    pub fn walk(&mut self) {
        let slot = self.random.below(SLOTS);
        let begins = if self.model.has_walk(slot) { 40 } else { 95 };
        if self.random.chance(begins) {
            let tokens = self.random.chance(60);
            let path = self.node_path();
            self.put(Call::WalkBegin { slot, tokens, path });
        }
        let skips = *self.random.pick(&[0, 10, 40, 60]);
        let steps = *self.random.pick(&[2, 6, 20, 40]);
        for _ in 0..self.random.between(1, steps) {
            if self.random.chance(skips) {
                self.put(Call::WalkSkip { slot });
            }
            let reply = match self.random.chance(20) {
                true => {
                    let count = *self.random.pick(&[0, 1, 2, 5, 63, 64, 65, 130]);
                    self.put(Call::WalkMany { slot, count })
                }
                false => self.put(Call::WalkNext { slot }),
            };
            if matches!(reply, Reply::NoWalk | Reply::Ended) && self.random.chance(60) {
                break;
            }
        }
    }

    /// Takes a text or a slice, or goes on with one.
    pub fn text(&mut self) {
        let mut slot = self.random.below(SLOTS);
        if self.model.text_length(slot).is_none() && self.random.chance(95) {
            let path = self.text_path();
            self.put(Call::TextOf { slot, path });
        }
        if self.model.text_length(slot).is_none() && self.random.chance(60) {
            return;
        }
        if self.random.chance(60) {
            slot = self.slice(slot);
        }
        for _ in 0..self.random.between(1, 8) {
            let call = self.text_question(slot);
            self.put(call);
        }
    }

    /// A path to a node of moderate size, as a rule.
    fn text_path(&mut self) -> Path {
        for _ in 0..8 {
            let path = self.node_path();
            let number = self.model.number_at(&path);
            let size = number.and_then(|it| self.model.size(it));
            if size.is_none_or(|it| it < LARGE) || self.random.chance(1) {
                return path;
            }
        }
        Path {
            root: u32::MAX,
            indexes: Vec::new(),
        }
    }

    /// Takes a slice and answers its slot.
    fn slice(&mut self, from: usize) -> usize {
        let to = self.random.below(SLOTS);
        let length = self.model.text_length(from).unwrap_or(3);
        let end = |random: &mut super::Random| match random.below(12) {
            0 => random.word(),
            1 => length.saturating_add(1),
            2 => length,
            3 => 0,
            _ => random.below(length as usize + 1) as u32,
        };
        let (start, end) = (end(&mut self.random), end(&mut self.random));
        let (start, end) = match self.random.chance(90) {
            true => (start.min(end), start.max(end)),
            false => (start, end),
        };
        let reply = self.put(Call::TextSlice {
            to,
            from,
            start,
            end,
        });
        match reply {
            Reply::Ok => to,
            // The slot is empty now.
            _ if self.random.chance(10) => to,
            _ => from,
        }
    }

    fn text_question(&mut self, slot: usize) -> Call {
        let length = self.model.text_length(slot).unwrap_or(0);
        let offset = match self.random.chance(90) {
            true => self.random.below(length as usize + 2) as u32,
            false => self.random.word(),
        };
        let byte = self.byte(slot, offset);
        match self.random.below(12) {
            0 => Call::TextLength { slot },
            1 => Call::ChunkBegin { slot },
            2 => Call::TextContains { slot, byte },
            3 => Call::TextFind { slot, byte },
            4 => Call::TextCharAt { slot, offset },
            5 | 6 => Call::TextEqual {
                left: slot,
                right: self.random.below(SLOTS),
            },
            _ => Call::ChunkNext { slot },
        }
    }

    /// A byte to look for: one of the text, a frequent one, or any.
    fn byte(&mut self, slot: usize, offset: u32) -> u8 {
        let there = self.model.answer(&Call::TextCharAt { slot, offset });
        match (self.random.below(10), there) {
            (0..=4, Reply::Char(byte)) => byte,
            (0..=8, _) => *self.random.pick(b"aBS 12c\x7f"),
            _ => self.random.number() as u8,
        }
    }
}
