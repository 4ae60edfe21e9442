//! An executable reading of document 01, written from the papers alone: nothing here comes from
//! rowan. It answers every call and every refusal.

mod cursor;
mod edit;
mod hash;
mod query;
mod run;
mod store;
mod text;
mod walk;

use crate::{
    reply::{Counts, Refusal, Reply},
    script::{Call, Group, Path, SLOTS},
};
use cursor::Cursor;
use store::Store;
use text::Text;
use walk::Walk;

/// The store and the slots that a script's calls work on.
#[derive(Debug, Clone)]
pub struct Model {
    store: Store,
    walks: [Option<Walk>; SLOTS],
    texts: [Option<Text>; SLOTS],
}

impl Default for Model {
    fn default() -> Self {
        Model::with_capacity(store::MOST)
    }
}

impl Model {
    fn with_capacity(capacity: Counts) -> Model {
        Model {
            store: Store::new(capacity),
            walks: Default::default(),
            texts: Default::default(),
        }
    }

    pub fn answer(&mut self, call: &Call) -> Reply {
        match call.group() {
            Group::Store => self.renew(call),
            Group::Run => self.run(call),
            Group::Edit => self.edit(call),
            Group::Walk => self.walk(call),
            Group::Text => self.text(call),
            Group::Query | Group::Record => self.read(call).into(),
            Group::Unknown => Reply::NotOffered,
        }
    }

    fn renew(&mut self, call: &Call) -> Reply {
        let Call::Store {
            records,
            places,
            bytes,
        } = call
        else {
            unreachable!("not a call for a store")
        };
        *self = Model::with_capacity(Counts {
            records: *records as usize,
            places: *places as usize,
            bytes: *bytes as usize,
        });
        Reply::Ok
    }

    fn run(&mut self, call: &Call) -> Reply {
        let Call::Run { each, sheet, text } = call else {
            unreachable!("not a run")
        };
        Reply::Run(run::run(&mut self.store, sheet, text, *each))
    }

    fn edit(&mut self, call: &Call) -> Reply {
        Reply::Edited {
            outcome: edit::edit(&mut self.store, call),
            store: self.store.counts(),
        }
    }

    #[rustfmt::skip]
    fn read(&self, call: &Call) -> Result<Reply, Refusal> {
        let cursor = |path: &Path| Cursor::resolve(&self.store, path);
        Ok(match call {
            Call::Step { step, path } => query::step(cursor(path)?, *step)?.into(),
            Call::TokenAtOffset { offset, path } => query::token_at_offset(cursor(path)?, *offset)?,
            Call::ChildOrTokenAtRange { start, end, path } => {
                query::child_or_token_at_range(cursor(path)?, *start, *end)?.into()
            }
            Call::CoveringElement { start, end, path } => {
                Reply::Element(query::covering_element(cursor(path)?, *start, *end)?)
            }
            Call::SameElement { left, right } => {
                Reply::flag(cursor(left)?.is_same_element(&cursor(right)?))
            }
            Call::WhereIs { number, root } => query::where_is(&self.store, *number, *root)?,
            Call::Element { number } => self.store.get(*number)?.measured(),
            Call::Mark { number } => Reply::Mark(self.store.get(*number)?.hash),
            Call::Record { number } => self.store.shown(self.store.get(*number)?),
            _ => unreachable!("not a reading call"),
        })
    }

    /// The number of the element that a path leads to.
    pub fn number_at(&self, path: &Path) -> Option<u32> {
        Some(Cursor::resolve(&self.store, path).ok()?.number())
    }

    /// The numbers of a node's children; none of a token or of no element.
    pub fn children(&self, number: u32) -> Option<&[u32]> {
        let record = self.store.get(number).ok()?;
        self.store.children(record)
    }

    /// A token's bytes; none of a node or of no element.
    pub fn token_text(&self, number: u32) -> Option<&[u8]> {
        let record = self.store.get(number).ok()?;
        self.store.token_text(record)
    }

    /// The text length of an element.
    pub fn length(&self, number: u32) -> Option<u32> {
        Some(self.store.get(number).ok()?.length)
    }

    /// The count of elements under and with an element, repeats included.
    pub fn size(&self, number: u32) -> Option<u32> {
        Some(self.store.get(number).ok()?.size)
    }

    pub fn kind(&self, number: u32) -> Option<u16> {
        Some(self.store.get(number).ok()?.kind)
    }

    pub fn counts(&self) -> Counts {
        self.store.counts()
    }

    pub fn has_walk(&self, slot: usize) -> bool {
        self.walks[slot].is_some()
    }

    /// The length of the text in a slot.
    pub fn text_length(&self, slot: usize) -> Option<u32> {
        self.texts[slot].as_ref().map(Text::length)
    }
}
