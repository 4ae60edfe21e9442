//! Cursors: the element that a path leads to, with all that lies above it.

use super::store::{Record, Store};
use crate::{
    reply::{Element, Refusal},
    script::Path,
};
use std::ops::Range;

/// A path has at most this many indexes.
const MAX_DEPTH: usize = 64;

/// One element on the way down: its number, offset from the root's start, and index.
#[derive(Debug, Clone, Copy, PartialEq, Eq)]
struct Level {
    number: u32,
    start: u32,
    index: u32,
}

/// An occurrence of an element under a root.
#[derive(Clone)]
pub struct Cursor<'a> {
    store: &'a Store,
    /// From the root down to the element; never empty.
    levels: Vec<Level>,
}

impl<'a> Cursor<'a> {
    /// Refused by 4 if the root is no node or the path leads nowhere.
    pub fn resolve(store: &'a Store, path: &Path) -> Result<Cursor<'a>, Refusal> {
        if !store.get(path.root)?.is_node() || path.indexes.len() > MAX_DEPTH {
            return Err(Refusal::NO_SUCH_ELEMENT);
        }
        let mut cursor = Cursor::root(store, path.root);
        for index in &path.indexes {
            cursor = cursor
                .child(*index as usize)
                .ok_or(Refusal::NO_SUCH_ELEMENT)?;
        }
        Ok(cursor)
    }

    fn root(store: &'a Store, number: u32) -> Cursor<'a> {
        let root = Level {
            number,
            start: 0,
            index: 0,
        };
        Cursor {
            store,
            levels: vec![root],
        }
    }

    fn level(&self) -> Level {
        self.levels[self.levels.len() - 1]
    }

    pub fn number(&self) -> u32 {
        self.level().number
    }

    pub fn record(&self) -> &'a Record {
        self.store.at(self.number())
    }

    pub fn is_node(&self) -> bool {
        self.record().is_node()
    }

    pub fn start(&self) -> u32 {
        self.level().start
    }

    pub fn end(&self) -> u32 {
        self.start() + self.record().length
    }

    pub fn depth(&self) -> usize {
        self.levels.len() - 1
    }

    /// The cursor itself if it is a node's, refusal 4 if a token's.
    pub fn node(self) -> Result<Cursor<'a>, Refusal> {
        self.is_node()
            .then_some(self)
            .ok_or(Refusal::NO_SUCH_ELEMENT)
    }

    /// Where a token's bytes stand in the store's text; none of a node.
    pub fn token_part(&self) -> Option<Range<usize>> {
        self.store.token_part(self.record())
    }

    pub fn child_count(&self) -> usize {
        self.child_numbers().len()
    }

    /// The numbers of the children; none under a token.
    fn child_numbers(&self) -> &'a [u32] {
        self.store.children(self.record()).unwrap_or_default()
    }

    pub fn child(&self, index: usize) -> Option<Cursor<'a>> {
        let numbers = self.child_numbers();
        let number = *numbers.get(index)?;
        let before = numbers[..index].iter().map(|it| self.store.at(*it).length);
        let start = self.start() + before.sum::<u32>();
        Some(self.down(number, start, index))
    }

    /// All children in order.
    pub fn children(&self) -> impl Iterator<Item = Cursor<'a>> + '_ {
        let mut start = self.start();
        self.child_numbers()
            .iter()
            .enumerate()
            .map(move |(index, number)| {
                let child = self.down(*number, start, index);
                start = child.end();
                child
            })
    }

    fn down(&self, number: u32, start: u32, index: usize) -> Cursor<'a> {
        let mut levels = Vec::with_capacity(self.levels.len() + 1);
        levels.extend_from_slice(&self.levels);
        levels.push(Level {
            number,
            start,
            index: index as u32,
        });
        Cursor {
            store: self.store,
            levels,
        }
    }

    pub fn parent(&self) -> Option<Cursor<'a>> {
        let (_, above) = self.levels.split_last()?;
        (!above.is_empty()).then(|| Cursor {
            store: self.store,
            levels: above.to_vec(),
        })
    }

    pub fn next_sibling(&self) -> Option<Cursor<'a>> {
        let parent = self.parent()?;
        let next = self.level().index as usize + 1;
        let number = *parent.child_numbers().get(next)?;
        Some(parent.down(number, self.end(), next))
    }

    pub fn prev_sibling(&self) -> Option<Cursor<'a>> {
        let parent = self.parent()?;
        let prev = (self.level().index as usize).checked_sub(1)?;
        let number = parent.child_numbers()[prev];
        let start = self.start() - self.store.at(number).length;
        Some(parent.down(number, start, prev))
    }

    /// The numbers of the ancestors, the lowest first, each with the index that leads on down.
    pub fn ancestors(&self) -> impl Iterator<Item = (u32, u32)> + '_ {
        self.levels
            .windows(2)
            .rev()
            .map(|pair| (pair[0].number, pair[1].index))
    }

    /// Same-element compares record and offset.
    pub fn is_same_element(&self, other: &Cursor) -> bool {
        self.number() == other.number() && self.start() == other.start()
    }

    pub fn indexes(&self) -> Vec<u32> {
        self.levels[1..].iter().map(|it| it.index).collect()
    }

    pub fn path(&self) -> Path {
        Path {
            root: self.levels[0].number,
            indexes: self.indexes(),
        }
    }

    pub fn element(&self) -> Element {
        Element {
            is_node: self.is_node(),
            kind: self.record().kind,
            start: self.start(),
            end: self.end(),
            indexes: self.indexes(),
        }
    }
}
