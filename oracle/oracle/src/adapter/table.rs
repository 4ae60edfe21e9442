//! rowan's elements under the numbers of document 01. An element's identity in rowan is its
//! address; a number is given to each address when it is first met, so the table is one to one
//! by construction, and agreement with the model's numbers is agreement about sharing.

use super::Fault;
use crate::reply::{Counts, Maker, Reply};
use rowan::{hashes, GreenNode, GreenNodeData, GreenToken, GreenTokenData, NodeOrToken};
use std::{
    cell::OnceCell,
    collections::{HashMap, HashSet},
};

pub type Green = NodeOrToken<GreenNode, GreenToken>;
type GreenRef<'a> = NodeOrToken<&'a GreenNodeData, &'a GreenTokenData>;
type Address = *const ();

struct Entry {
    /// Held, so that no other element gets its address.
    green: Green,
    maker: Maker,
    children: Vec<u32>,
    size: u32,
    height: u32,
    /// Computed when first asked for.
    hash: OnceCell<u64>,
}

#[derive(Default)]
pub struct Table {
    numbers: HashMap<Address, u32>,
    entries: Vec<Entry>,
    counts: Counts,
}

fn address(green: GreenRef) -> Address {
    match green {
        NodeOrToken::Node(node) => node as *const GreenNodeData as Address,
        NodeOrToken::Token(token) => token as *const GreenTokenData as Address,
    }
}

fn as_ref(green: &Green) -> GreenRef<'_> {
    match green {
        NodeOrToken::Node(node) => NodeOrToken::Node(node),
        NodeOrToken::Token(token) => NodeOrToken::Token(token),
    }
}

impl Table {
    /// The records met, their children and their tokens' bytes.
    pub fn counts(&self) -> Counts {
        self.counts
    }

    pub fn green(&self, number: u32) -> &Green {
        &self.entries[number as usize].green
    }

    /// The node of a number that the model has found to name one.
    pub fn node(&self, number: u32) -> &GreenNode {
        let node = self.green(number).as_node();
        node.expect("the model refuses a token here")
    }

    pub fn children(&self, number: u32) -> &[u32] {
        &self.entries[number as usize].children
    }

    /// The element's number, the next one if it is met for the first time: then the call under way
    /// made it.
    pub fn admit(&mut self, green: Green, maker: Maker) -> Result<u32, Fault> {
        if let Some(number) = self.numbers.get(&address(as_ref(&green))) {
            return Ok(*number);
        }
        let children = self.child_numbers(&green)?;
        self.counts.records += 1;
        self.counts.places += children.len();
        if let NodeOrToken::Token(token) = &green {
            self.counts.bytes += token.text().len();
        }
        let number = self.entries.len() as u32;
        let below = children.iter().map(|it| &self.entries[*it as usize]);
        let size = 1 + below.clone().map(|it| it.size).sum::<u32>();
        let height = below.map(|it| it.height).max().unwrap_or(0);
        self.numbers.insert(address(as_ref(&green)), number);
        self.entries.push(Entry {
            size,
            height: height + u32::from(green.as_node().is_some()),
            children,
            maker,
            green,
            hash: OnceCell::new(),
        });
        Ok(number)
    }

    /// A record is never made before its children, so they have been met.
    fn child_numbers(&self, green: &Green) -> Result<Vec<u32>, Fault> {
        let NodeOrToken::Node(node) = green else {
            return Ok(Vec::new());
        };
        node.children()
            .map(|it| self.numbers.get(&address(it)).copied())
            .collect::<Option<Vec<u32>>>()
            .ok_or_else(|| Fault("rowan has copied a child".into()))
    }

    pub fn measured(&self, number: u32) -> Reply {
        let entry = &self.entries[number as usize];
        Reply::Measured {
            is_node: entry.green.as_node().is_some(),
            kind: entry.green.kind().0,
            length: entry.green.text_len().into(),
            size: entry.size,
            height: entry.height,
            children: entry.children.len() as u32,
        }
    }

    /// The element as rowan holds it; what made it was noted when it was met.
    pub fn shown(&self, number: u32) -> Result<Reply, Fault> {
        let entry = &self.entries[number as usize];
        let kind = entry.green.kind().0;
        Ok(match &entry.green {
            NodeOrToken::Token(token) => Reply::TokenRecord {
                kind,
                text: token.text().as_bytes().to_vec(),
            },
            NodeOrToken::Node(_) => Reply::NodeRecord {
                kind,
                maker: entry.maker,
                children: self.child_numbers(&entry.green)?,
            },
        })
    }

    /// The hash that rowan's node cache has for the element.
    pub fn hash(&self, number: u32) -> u64 {
        let entry = &self.entries[number as usize];
        *entry.hash.get_or_init(|| match &entry.green {
            NodeOrToken::Token(token) => hashes::of_token(token.kind(), token.text()),
            NodeOrToken::Node(node) => {
                let child = |it: &u32| (self.hash(*it), self.green(*it).clone());
                hashes::of_node(node.kind(), entry.children.iter().map(child).collect())
            }
        })
    }

    /// The number at the end of a path.
    pub fn number_at(&self, root: u32, indexes: &[u32]) -> Option<u32> {
        indexes.iter().try_fold(root, |number, index| {
            self.children(number).get(*index as usize).copied()
        })
    }

    /// Whether an element occurs under a root, or is it.
    pub fn occurs(&self, number: u32, root: u32) -> bool {
        let mut searched = HashSet::new();
        let mut left = vec![root];
        while let Some(next) = left.pop() {
            if next == number {
                return true;
            }
            if searched.insert(next) {
                left.extend(self.children(next));
            }
        }
        false
    }
}
