//! Texts of nodes and slices of them.

use super::{cursor::Cursor, store::Store, Model};
use crate::{
    reply::{Refusal, Reply},
    script::{Call, Path},
};
use std::ops::Range;

/// A part of the store's text.
type Chunk = Range<usize>;

#[derive(Debug, Clone)]
pub struct Text {
    /// The node whose text it was; a slice keeps it, for its tokens give the chunks.
    node: Path,
    /// Offset 0 is where the root starts.
    start: u32,
    end: u32,
    /// All chunks, once they have been asked for.
    chunks: Option<Vec<Chunk>>,
    /// How many of them the chunk steps have given.
    given: usize,
}

impl Model {
    #[rustfmt::skip]
    pub(super) fn text(&mut self, call: &Call) -> Reply {
        match call {
            Call::TextOf { slot, path } => {
                let text = Text::of(&self.store, path);
                self.put_text(*slot, text)
            }
            Call::TextSlice { to, from, start, end } => match &self.texts[*from] {
                Some(text) => {
                    let slice = text.slice(*start, *end);
                    self.put_text(*to, slice)
                }
                None => {
                    self.texts[*to] = None;
                    Reply::NoText
                }
            },
            Call::TextEqual { left, right } => {
                let bytes = |slot: &usize| Some(self.texts[*slot].clone()?.bytes(&self.store));
                match (bytes(left), bytes(right)) {
                    (Some(left), Some(right)) => Reply::flag(left == right),
                    _ => Reply::NoText,
                }
            }
            Call::TextLength { slot } => self.ask(*slot, |text, _| Reply::Length(text.length())),
            Call::ChunkBegin { slot } => self.ask(*slot, |text, _| text.begin()),
            Call::ChunkNext { slot } => self.ask(*slot, Text::next_chunk),
            Call::TextContains { slot, byte } => {
                self.ask(*slot, |text, store| Reply::flag(text.find(store, *byte).is_some()))
            }
            Call::TextFind { slot, byte } => {
                let reply = |found: Option<u32>| found.map_or(Reply::None, Reply::At);
                self.ask(*slot, |text, store| reply(text.find(store, *byte)))
            }
            Call::TextCharAt { slot, offset } => {
                let reply = |found: Option<u8>| found.map_or(Reply::None, Reply::Char);
                self.ask(*slot, |text, store| reply(text.char_at(store, *offset)))
            }
            _ => unreachable!("not a call of texts"),
        }
    }

    fn put_text(&mut self, slot: usize, text: Result<Text, Refusal>) -> Reply {
        match text {
            Ok(text) => {
                self.texts[slot] = Some(text);
                Reply::Ok
            }
            Err(refusal) => {
                self.texts[slot] = None;
                Reply::Refused(refusal)
            }
        }
    }

    fn ask(&mut self, slot: usize, question: impl Fn(&mut Text, &Store) -> Reply) -> Reply {
        match &mut self.texts[slot] {
            Some(text) => question(text, &self.store),
            None => Reply::NoText,
        }
    }
}

impl Text {
    fn of(store: &Store, path: &Path) -> Result<Text, Refusal> {
        let node = Cursor::resolve(store, path)?.node()?;
        Ok(Text {
            node: path.clone(),
            start: node.start(),
            end: node.end(),
            chunks: None,
            given: 0,
        })
    }

    pub fn length(&self) -> u32 {
        self.end - self.start
    }

    fn slice(&self, start: u32, end: u32) -> Result<Text, Refusal> {
        if start > end || end > self.length() {
            return Err(Refusal::OUT_OF_RANGE);
        }
        Ok(Text {
            node: self.node.clone(),
            start: self.start + start,
            end: self.start + end,
            chunks: None,
            given: 0,
        })
    }

    fn begin(&mut self) -> Reply {
        self.given = 0;
        Reply::Ok
    }

    fn next_chunk(&mut self, store: &Store) -> Reply {
        let given = self.given;
        match self.chunks(store).get(given).cloned() {
            Some(chunk) => {
                self.given += 1;
                Reply::Chunk(store.text_part(chunk).to_vec())
            }
            None => Reply::Ended,
        }
    }

    fn chunks(&mut self, store: &Store) -> &[Chunk] {
        let (node, start, end) = (&self.node, self.start, self.end);
        self.chunks.get_or_insert_with(|| {
            let node = Cursor::resolve(store, node).expect("records never change");
            let mut chunks = Vec::new();
            push_chunks(&node, start, end, &mut chunks);
            chunks
        })
    }

    fn bytes(&mut self, store: &Store) -> Vec<u8> {
        let chunks = self.chunks(store).iter();
        let parts: Vec<&[u8]> = chunks.map(|it| store.text_part(it.clone())).collect();
        parts.concat()
    }

    fn find(&mut self, store: &Store, byte: u8) -> Option<u32> {
        let at = self.bytes(store).iter().position(|it| *it == byte)?;
        Some(at as u32)
    }

    fn char_at(&mut self, store: &Store, offset: u32) -> Option<u8> {
        self.bytes(store).get(offset as usize).copied()
    }
}

/// Each token that overlaps the slice, or only touches it, gives a chunk, in order.
fn push_chunks(cursor: &Cursor, start: u32, end: u32, chunks: &mut Vec<Chunk>) {
    if cursor.end() < start || cursor.start() > end {
        return;
    }
    if let Some(part) = cursor.token_part() {
        let from = start.max(cursor.start()) - cursor.start();
        let to = end.min(cursor.end()) - cursor.start();
        chunks.push(part.start + from as usize..part.start + to as usize);
    }
    for child in cursor.children() {
        push_chunks(&child, start, end, chunks);
    }
}
