//! The store: records in the order of their numbers, and which of them events may find.

use super::hash;
use crate::reply::{Counts, Maker, Refusal, Reply};
use std::{collections::HashMap, ops::Range};

/// The most that a store uses of what is lent to it.
pub const MOST: Counts = Counts {
    records: 8_192,
    places: 16_384,
    bytes: 65_536,
};

const MAX_CHILDREN: usize = 4_096;
const MAX_HEIGHT: u32 = 64;
const MAX_SIZE: u64 = 1_048_576;
const MAX_LENGTH: u64 = u32::MAX as u64;

#[derive(Debug, Clone)]
pub enum Content {
    /// Where the token's bytes begin in the store's text.
    Token { first: usize },
    /// Where the node's children begin in the child places, how many there are, and what made it.
    Node {
        first: usize,
        count: usize,
        maker: Maker,
    },
}

#[derive(Debug, Clone)]
pub struct Record {
    pub kind: u16,
    pub content: Content,
    pub length: u32,
    pub size: u32,
    pub height: u32,
    pub hash: u64,
}

impl Record {
    pub fn is_node(&self) -> bool {
        matches!(self.content, Content::Node { .. })
    }

    pub fn measured(&self) -> Reply {
        let children = match self.content {
            Content::Token { .. } => 0,
            Content::Node { count, .. } => count as u32,
        };
        Reply::Measured {
            is_node: self.is_node(),
            kind: self.kind,
            length: self.length,
            size: self.size,
            height: self.height,
            children,
        }
    }
}

/// What an event asks for, in document 01's words what it spells. A sharable node's children are
/// sharable and made by events, so they are spelled alike exactly if their numbers are equal.
#[derive(Debug, Clone, PartialEq, Eq, Hash)]
enum Key {
    Token(u16, Vec<u8>),
    Node(u16, Vec<u32>),
}

/// A node that passed the limits and is not in the store yet.
pub struct NewNode {
    kind: u16,
    children: Vec<u32>,
    length: u32,
    size: u32,
    height: u32,
    hash: u64,
}

impl NewNode {
    pub fn place_count(&self) -> usize {
        self.children.len()
    }

    /// A stand-in for one of its parent's children, before it is in the store.
    pub fn measures(&self) -> Measures {
        Measures {
            length: self.length,
            size: self.size,
            height: self.height,
            hash: self.hash,
        }
    }
}

/// What a parent's limits and hash are computed from.
#[derive(Debug, Clone, Copy)]
pub struct Measures {
    length: u32,
    size: u32,
    height: u32,
    hash: u64,
}

#[derive(Debug, Clone)]
pub struct Store {
    capacity: Counts,
    records: Vec<Record>,
    places: Vec<u32>,
    text: Vec<u8>,
    /// The sharable records that events made.
    interned: HashMap<Key, u32>,
}

impl Store {
    pub fn new(lent: Counts) -> Store {
        Store {
            capacity: Counts {
                records: lent.records.min(MOST.records),
                places: lent.places.min(MOST.places),
                bytes: lent.bytes.min(MOST.bytes),
            },
            records: Vec::new(),
            places: Vec::new(),
            text: Vec::new(),
            interned: HashMap::new(),
        }
    }

    pub fn counts(&self) -> Counts {
        Counts {
            records: self.records.len(),
            places: self.places.len(),
            bytes: self.text.len(),
        }
    }

    pub fn get(&self, number: u32) -> Result<&Record, Refusal> {
        self.records
            .get(number as usize)
            .ok_or(Refusal::NO_SUCH_ELEMENT)
    }

    /// The record of a number that stands in a record or a place, and so is there.
    pub fn at(&self, number: u32) -> &Record {
        &self.records[number as usize]
    }

    pub fn children(&self, record: &Record) -> Option<&[u32]> {
        match record.content {
            Content::Token { .. } => None,
            Content::Node { first, count, .. } => Some(&self.places[first..first + count]),
        }
    }

    pub fn token_text(&self, record: &Record) -> Option<&[u8]> {
        Some(self.text_part(self.token_part(record)?))
    }

    /// Where a token's bytes stand in the store's text.
    pub fn token_part(&self, record: &Record) -> Option<Range<usize>> {
        match record.content {
            Content::Token { first } => Some(first..first + record.length as usize),
            Content::Node { .. } => None,
        }
    }

    /// A part of the store's text.
    pub fn text_part(&self, part: Range<usize>) -> &[u8] {
        &self.text[part]
    }

    /// A record as it stands: a token's kind and text, or a node's kind, maker and children.
    pub fn shown(&self, record: &Record) -> Reply {
        let kind = record.kind;
        match record.content {
            Content::Token { .. } => Reply::TokenRecord {
                kind,
                text: self.token_text(record).unwrap_or_default().to_vec(),
            },
            Content::Node { maker, .. } => Reply::NodeRecord {
                kind,
                maker,
                children: self.children(record).unwrap_or_default().to_vec(),
            },
        }
    }

    pub fn measures(&self, number: u32) -> Measures {
        let record = self.at(number);
        Measures {
            length: record.length,
            size: record.size,
            height: record.height,
            hash: record.hash,
        }
    }

    /// Whether there is room for this much more.
    pub fn room(&self, needed: Counts) -> Result<(), Refusal> {
        let fits = self.records.len() + needed.records <= self.capacity.records
            && self.places.len() + needed.places <= self.capacity.places
            && self.text.len() + needed.bytes <= self.capacity.bytes;
        fits.then_some(()).ok_or(Refusal::STORE_FULL)
    }

    /// A token event's element: found, or else made.
    pub fn token(&mut self, kind: u16, text: &[u8]) -> Result<u32, Refusal> {
        let key = Key::Token(kind, text.to_vec());
        if let Some(number) = self.interned.get(&key) {
            return Ok(*number);
        }
        self.room(Counts {
            records: 1,
            places: 0,
            bytes: text.len(),
        })?;
        let first = self.text.len();
        self.text.extend_from_slice(text);
        let number = self.push(Record {
            kind,
            content: Content::Token { first },
            length: text.len() as u32,
            size: 1,
            height: 0,
            hash: hash::of_token(kind, text),
        });
        self.interned.insert(key, number);
        Ok(number)
    }

    /// A finish-node event's element: found, or else made.
    pub fn node(&mut self, kind: u16, children: &[u32]) -> Result<u32, Refusal> {
        let new = self.new_node(kind, children.to_vec())?;
        let hashes: Vec<u64> = children.iter().map(|it| self.at(*it).hash).collect();
        if !hash::is_sharable(&hashes) {
            return self.make(new, Maker::Event);
        }
        let key = Key::Node(kind, children.to_vec());
        if let Some(number) = self.interned.get(&key) {
            return Ok(*number);
        }
        let number = self.make(new, Maker::Event)?;
        self.interned.insert(key, number);
        Ok(number)
    }

    /// A node over these children, if it keeps the limits of refusal 14.
    pub fn new_node(&self, kind: u16, children: Vec<u32>) -> Result<NewNode, Refusal> {
        let measures: Vec<Measures> = children.iter().map(|it| self.measures(*it)).collect();
        measured_node(kind, children, &measures)
    }

    /// Makes the record of a new node, if there is room.
    pub fn make(&mut self, node: NewNode, maker: Maker) -> Result<u32, Refusal> {
        self.room(Counts {
            records: 1,
            places: node.children.len(),
            bytes: 0,
        })?;
        let content = Content::Node {
            first: self.places.len(),
            count: node.children.len(),
            maker,
        };
        self.places.extend_from_slice(&node.children);
        Ok(self.push(Record {
            kind: node.kind,
            content,
            length: node.length,
            size: node.size,
            height: node.height,
            hash: node.hash,
        }))
    }

    fn push(&mut self, record: Record) -> u32 {
        self.records.push(record);
        self.records.len() as u32 - 1
    }
}

/// A node over children of these measures, if it keeps the limits of refusal 14.
pub fn measured_node(
    kind: u16,
    children: Vec<u32>,
    measures: &[Measures],
) -> Result<NewNode, Refusal> {
    let length: u64 = measures.iter().map(|it| u64::from(it.length)).sum();
    let size: u64 = 1 + measures.iter().map(|it| u64::from(it.size)).sum::<u64>();
    let height = 1 + measures.iter().map(|it| it.height).max().unwrap_or(0);
    if children.len() > MAX_CHILDREN
        || height > MAX_HEIGHT
        || size > MAX_SIZE
        || length > MAX_LENGTH
    {
        return Err(Refusal::OVER_LIMIT);
    }
    let hashes: Vec<u64> = measures.iter().map(|it| it.hash).collect();
    Ok(NewNode {
        kind,
        children,
        length: length as u32,
        size: size as u32,
        height,
        hash: hash::of_node(kind, &hashes),
    })
}
