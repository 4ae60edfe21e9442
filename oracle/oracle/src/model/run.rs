//! The run of a sheet: the builder's rules, event by event.

use super::store::Store;
use crate::{
    reply::{Counts, Refusal, Run},
    sheet::Sheet,
};

const MAX_EVENTS: usize = 4_096;
const MAX_TEXT: u32 = 65_536;
const MAX_PARENTS: usize = 64;
const MAX_CHILDREN: usize = 4_096;
const REGISTERS: usize = 64;

/// An open node: its kind, and how many finished elements there were at its start.
struct Parent {
    kind: u16,
    first_child: usize,
}

struct Builder<'a> {
    store: &'a mut Store,
    text_left: &'a [u8],
    parents: Vec<Parent>,
    /// The finished elements, which document 01 has waiting in a list.
    children: Vec<u32>,
    registers: [Option<usize>; REGISTERS],
}

pub fn run(store: &mut Store, sheet: &[u8], text: &[u8], each: bool) -> Run {
    let mut events = Vec::new();
    let outcome = run_events(store, sheet, text, &mut events);
    Run {
        events,
        outcome,
        store: store.counts(),
        each,
    }
}

/// What an event yields, and the store after it.
type Accepted = (Option<u32>, Counts);

fn run_events(
    store: &mut Store,
    sheet: &[u8],
    text: &[u8],
    accepted: &mut Vec<Accepted>,
) -> Result<u32, (Refusal, usize)> {
    let sheet = Sheet::read(sheet)
        .filter(|it| it.events.len() <= MAX_EVENTS && it.text_length <= MAX_TEXT)
        .filter(|it| it.text_length as usize == text.len())
        .ok_or((Refusal::BROKEN_SHEET, 0))?;
    let mut builder = Builder {
        store,
        text_left: text,
        parents: Vec::new(),
        children: Vec::new(),
        registers: [None; REGISTERS],
    };
    for (ordinal, event) in sheet.events.iter().enumerate() {
        let yielded = builder.event(*event).map_err(|it| (it, ordinal))?;
        accepted.push((yielded, builder.store.counts()));
    }
    builder.end().map_err(|it| (it, sheet.events.len()))
}

impl Builder<'_> {
    /// Judges an event and answers the number that it yields.
    fn event(&mut self, (word, operand): (u32, u32)) -> Result<Option<u32>, Refusal> {
        let code = word >> 16;
        let kind = word as u16;
        let must_be_0 = match code {
            2 => operand,
            3 => operand | u32::from(kind),
            4 => u32::from(kind),
            _ => 0,
        };
        let is_register = matches!(code, 4 | 5);
        if must_be_0 != 0 || is_register && operand as usize >= REGISTERS {
            return Err(Refusal::BAD_EVENT);
        }
        match code {
            1 => self.token(kind, operand as usize).map(Some),
            2 => self.start(kind, self.children.len()).map(|()| None),
            3 => self.finish_node().map(Some),
            4 => {
                self.registers[operand as usize] = Some(self.children.len());
                Ok(None)
            }
            5 => self.start_at(kind, operand as usize).map(|()| None),
            _ => Err(Refusal::BAD_EVENT),
        }
    }

    fn token(&mut self, kind: u16, length: usize) -> Result<u32, Refusal> {
        let (text, left) = self
            .text_left
            .split_at_checked(length)
            .ok_or(Refusal::BAD_TEXT)?;
        if text.iter().any(|it| *it > 127) {
            return Err(Refusal::BAD_TEXT);
        }
        if self.children.len() >= MAX_CHILDREN {
            return Err(Refusal::OVER_LIMIT);
        }
        let number = self.store.token(kind, text)?;
        self.text_left = left;
        self.children.push(number);
        Ok(number)
    }

    fn start(&mut self, kind: u16, first_child: usize) -> Result<(), Refusal> {
        if self.parents.len() >= MAX_PARENTS {
            return Err(Refusal::OVER_LIMIT);
        }
        self.parents.push(Parent { kind, first_child });
        Ok(())
    }

    fn start_at(&mut self, kind: u16, register: usize) -> Result<(), Refusal> {
        let checkpoint = self.registers[register].ok_or(Refusal::UNFIT_CHECKPOINT)?;
        let least = self.parents.last().map_or(0, |it| it.first_child);
        if checkpoint > self.children.len() || checkpoint < least {
            return Err(Refusal::UNFIT_CHECKPOINT);
        }
        self.start(kind, checkpoint)
    }

    fn finish_node(&mut self) -> Result<u32, Refusal> {
        let parent = self.parents.last().ok_or(Refusal::NOTHING_OPEN)?;
        let number = self
            .store
            .node(parent.kind, &self.children[parent.first_child..])?;
        self.children.truncate(parent.first_child);
        self.children.push(number);
        self.parents.pop();
        Ok(number)
    }

    /// What waits at the end must be a node, and nothing besides.
    fn end(self) -> Result<u32, Refusal> {
        if !self.text_left.is_empty() {
            return Err(Refusal::BAD_TEXT);
        }
        match self.children[..] {
            [root] if self.store.at(root).is_node() => Ok(root),
            _ => Err(Refusal::NO_SINGLE_ROOT),
        }
    }
}
