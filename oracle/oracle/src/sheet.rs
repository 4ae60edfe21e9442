//! The form of a sheet: sizes, event words, operands, each 32 bits and little-endian. Whether the
//! events may stand there is for the readings to judge.

use std::fmt;

/// A sheet's events as they stand in it: event word and operand.
pub struct Sheet {
    pub text_length: u32,
    pub events: Vec<(u32, u32)>,
}

/// An event as document 01 numbers them.
#[derive(Debug, Clone, Copy, PartialEq, Eq)]
pub enum Event {
    Token { kind: u16, length: u32 },
    Start { kind: u16 },
    Finish,
    Checkpoint { register: u32 },
    StartAt { kind: u16, register: u32 },
}

impl Event {
    pub fn words(self) -> (u32, u32) {
        let word = |code: u32, kind: u16| code << 16 | u32::from(kind);
        match self {
            Event::Token { kind, length } => (word(1, kind), length),
            Event::Start { kind } => (word(2, kind), 0),
            Event::Finish => (word(3, 0), 0),
            Event::Checkpoint { register } => (word(4, 0), register),
            Event::StartAt { kind, register } => (word(5, kind), register),
        }
    }

    /// The event of these words, if they are one; none for what refusal 2 turns down.
    pub fn of_words((word, operand): (u32, u32)) -> Option<Event> {
        let kind = word as u16;
        let event = match word >> 16 {
            1 => Event::Token {
                kind,
                length: operand,
            },
            2 => Event::Start { kind },
            3 => Event::Finish,
            4 => Event::Checkpoint { register: operand },
            5 => Event::StartAt {
                kind,
                register: operand,
            },
            _ => return None,
        };
        let register_fits = match event {
            Event::Checkpoint { register } | Event::StartAt { register, .. } => register < 64,
            _ => true,
        };
        // Words that come back other than they were have something in a field that must be 0.
        (register_fits && event.words() == (word, operand)).then_some(event)
    }
}

impl Sheet {
    /// None if the file is not 8 + 8n bytes long for the n that it names.
    pub fn read(bytes: &[u8]) -> Option<Sheet> {
        if bytes.len() < 8 || !bytes.len().is_multiple_of(8) {
            return None;
        }
        let word = |at: usize| {
            let bytes = &bytes[4 * at..4 * at + 4];
            u32::from_le_bytes([bytes[0], bytes[1], bytes[2], bytes[3]])
        };
        let count = bytes.len() / 8 - 1;
        if word(0) as usize != count {
            return None;
        }
        Some(Sheet {
            text_length: word(1),
            events: (2..count + 2)
                .map(|at| (word(at), word(at + count)))
                .collect(),
        })
    }

    pub fn write(&self) -> Vec<u8> {
        let sizes = [self.events.len() as u32, self.text_length];
        let words = self.events.iter().map(|it| it.0);
        let operands = self.events.iter().map(|it| it.1);
        sizes
            .into_iter()
            .chain(words)
            .chain(operands)
            .flat_map(u32::to_le_bytes)
            .collect()
    }

    /// A sheet and its text in readable form.
    pub fn shown(sheet: &[u8], text: &[u8]) -> String {
        let Some(read) = Sheet::read(sheet) else {
            return format!("a broken sheet of {} bytes {sheet:?}", sheet.len());
        };
        let events: Vec<String> = read
            .events
            .iter()
            .map(|it| Shown(*it).to_string())
            .collect();
        let text = text.escape_ascii();
        format!(
            "[{}] length {} text \"{text}\"",
            events.join(", "),
            read.text_length
        )
    }
}

struct Shown((u32, u32));

impl fmt::Display for Shown {
    fn fmt(&self, f: &mut fmt::Formatter<'_>) -> fmt::Result {
        match Event::of_words(self.0) {
            Some(Event::Token { kind, length }) => write!(f, "token {kind} of {length}"),
            Some(Event::Start { kind }) => write!(f, "start {kind}"),
            Some(Event::Finish) => write!(f, "finish"),
            Some(Event::Checkpoint { register }) => write!(f, "checkpoint {register}"),
            Some(Event::StartAt { kind, register }) => write!(f, "start {kind} at {register}"),
            None => write!(f, "words {:08x} {:08x}", self.0 .0, self.0 .1),
        }
    }
}

/// Writes a sheet and its text event by event.
#[derive(Debug, Clone, Default)]
pub struct SheetWriter {
    pub events: Vec<(u32, u32)>,
    pub text: Vec<u8>,
}

impl SheetWriter {
    pub fn event(mut self, event: Event) -> Self {
        self.events.push(event.words());
        self
    }

    pub fn token(mut self, kind: u16, text: &[u8]) -> Self {
        self.text.extend_from_slice(text);
        let length = text.len() as u32;
        self.event(Event::Token { kind, length })
    }

    pub fn start(self, kind: u16) -> Self {
        self.event(Event::Start { kind })
    }

    pub fn finish(self) -> Self {
        self.event(Event::Finish)
    }

    pub fn checkpoint(self, register: u32) -> Self {
        self.event(Event::Checkpoint { register })
    }

    pub fn start_at(self, kind: u16, register: u32) -> Self {
        self.event(Event::StartAt { kind, register })
    }

    /// The sheet's bytes and its text.
    pub fn files(self) -> (Vec<u8>, Vec<u8>) {
        let text_length = self.text.len() as u32;
        let sheet = Sheet {
            text_length,
            events: self.events,
        };
        (sheet.write(), self.text)
    }
}
