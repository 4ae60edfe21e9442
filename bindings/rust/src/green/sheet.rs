//! Builder events as the library takes them.

/// A sheet of builder events and its text: the two files that the program `list` reads. `docs/SHEETS.md` has the layout.
#[derive(Debug, Clone, PartialEq, Eq)]
pub struct Sheet {
    words: Vec<u32>,
    operands: Vec<u32>,
    text: Vec<u8>,
}

/// The codes of events.
#[derive(Clone, Copy)]
pub(super) enum Code {
    Token = 1,
    StartNode = 2,
    FinishNode = 3,
    Checkpoint = 4,
    StartNodeAt = 5,
}

impl Sheet {
    pub(super) fn new(text: Vec<u8>) -> Sheet {
        Sheet { words: Vec::new(), operands: Vec::new(), text }
    }

    pub(super) fn push(&mut self, code: Code, kind: u16, operand: u32) {
        self.words.push((code as u32) << 16 | u32::from(kind));
        self.operands.push(operand);
    }

    pub(super) fn codes(&self) -> impl Iterator<Item = u32> + '_ {
        self.words.iter().map(|word| word >> 16)
    }

    /// How many events there are.
    pub fn events(&self) -> usize {
        self.words.len()
    }

    /// The sheet's bytes: both counts, the event words, the operands, each number in 32 bits, little-endian.
    pub fn to_bytes(&self) -> Vec<u8> {
        // Counts that do not fit are over the limits; the library refuses them with the rest.
        let counts = [self.words.len() as u32, self.text.len() as u32];
        let numbers = counts.iter().chain(&self.words).chain(&self.operands);
        numbers.flat_map(|number| number.to_le_bytes()).collect()
    }

    /// The bytes of all tokens.
    pub fn text(&self) -> &[u8] {
        &self.text
    }
}
