//! rowan's texts.

use super::{caught, is_outside_domain, reading::resolve_node, Adapter};
use crate::{
    reply::{Refusal, Reply},
    script::Call,
};
use rowan::{SyntaxText, TextSize};

/// Chunks fetched at first; rowan gives them all in one call, and trees can be large.
const FIRST_BATCH: usize = 16;

pub struct Text {
    text: SyntaxText,
    /// The first chunks, as many as were needed so far.
    chunks: Vec<Vec<u8>>,
    /// Whether these are all.
    complete: bool,
    /// How many of them the chunk steps have given.
    given: usize,
}

impl Adapter {
    #[rustfmt::skip]
    pub(super) fn text(&mut self, call: &Call, model: &Reply) -> Reply {
        match call {
            Call::TextOf { slot, path } => {
                self.texts[*slot] = None;
                if is_outside_domain(model) {
                    return model.clone();
                }
                self.texts[*slot] = Some(Text::new(resolve_node(&self.table, path).text()));
                Reply::Ok
            }
            Call::TextSlice { to, from, start, end } => {
                let slice = match &self.texts[*from] {
                    Some(text) => text.slice((*start).into(), (*end).into()),
                    None => Err(Reply::NoText),
                };
                let reply = slice.as_ref().err().cloned().unwrap_or(Reply::Ok);
                self.texts[*to] = slice.ok();
                reply
            }
            Call::TextEqual { left, right } => match (&self.texts[*left], &self.texts[*right]) {
                (Some(left), Some(right)) => Reply::flag(left.text == right.text),
                _ => Reply::NoText,
            },
            Call::TextLength { slot } => self.ask(*slot, |it| Reply::Length(it.text.len().into())),
            Call::ChunkBegin { slot } => self.ask(*slot, Text::begin),
            Call::ChunkNext { slot } => self.ask(*slot, Text::next_chunk),
            Call::TextContains { slot, byte } => {
                self.ask(*slot, |it| Reply::flag(it.text.contains_char(char::from(*byte))))
            }
            Call::TextFind { slot, byte } => {
                self.ask(*slot, |it| it.find(char::from(*byte)))
            }
            Call::TextCharAt { slot, offset } => self.ask(*slot, |it| it.char_at((*offset).into())),
            _ => unreachable!("not a call of texts"),
        }
    }

    fn ask(&mut self, slot: usize, question: impl Fn(&mut Text) -> Reply) -> Reply {
        self.texts[slot].as_mut().map_or(Reply::NoText, question)
    }
}

impl Text {
    fn new(text: SyntaxText) -> Text {
        Text {
            text,
            chunks: Vec::new(),
            complete: false,
            given: 0,
        }
    }

    fn slice(&self, start: TextSize, end: TextSize) -> Result<Text, Reply> {
        caught(|| self.text.slice(start..end))
            .map(Text::new)
            .ok_or(Reply::Refused(Refusal::OUT_OF_RANGE))
    }

    fn find(&self, byte: char) -> Reply {
        let found = self.text.find_char(byte);
        found.map_or(Reply::None, |it| Reply::At(it.into()))
    }

    /// The characters are all of one byte: no other text passes refusal 3.
    fn char_at(&self, offset: TextSize) -> Reply {
        let found = self.text.char_at(offset);
        found.map_or(Reply::None, |it| Reply::Char(it as u8))
    }

    fn begin(&mut self) -> Reply {
        self.given = 0;
        Reply::Ok
    }

    fn next_chunk(&mut self) -> Reply {
        if self.given == self.chunks.len() && !self.complete {
            self.fetch();
        }
        match self.chunks.get(self.given) {
            Some(chunk) => {
                self.given += 1;
                Reply::Chunk(chunk.clone())
            }
            None => Reply::Ended,
        }
    }

    /// Fetches twice as many chunks as before. rowan offers no step, only a call for each.
    fn fetch(&mut self) {
        let most = (self.chunks.len() * 2).max(FIRST_BATCH);
        let chunks = &mut self.chunks;
        chunks.clear();
        let all = self.text.try_for_each_chunk(|chunk| {
            if chunks.len() == most {
                return Err(());
            }
            chunks.push(chunk.as_bytes().to_vec());
            Ok(())
        });
        self.complete = all.is_ok();
    }
}
