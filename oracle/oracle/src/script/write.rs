//! Writing of scripts.

use super::{Call, Path, Step};

/// The script of these calls.
pub fn write(calls: &[Call]) -> Vec<u8> {
    calls.iter().flat_map(call_bytes).collect()
}

/// The length of one call in a script, in bytes.
pub fn size(call: &Call) -> usize {
    call_bytes(call).len()
}

fn call_bytes(call: &Call) -> Vec<u8> {
    let (op, arguments) = words(call);
    [op, arguments.0.len() as u32]
        .iter()
        .chain(&arguments.0)
        .flat_map(|it| it.to_le_bytes())
        .collect()
}

/// A call's number and arguments.
#[rustfmt::skip]
fn words(call: &Call) -> (u32, Arguments) {
    let a = Arguments(Vec::new());
    match call {
        Call::Store { records, places, bytes } => (1, a.word(*records).word(*places).word(*bytes)),
        Call::Run { each, sheet, text } => (if *each { 3 } else { 2 }, a.bytes(sheet).bytes(text)),
        Call::ReplaceChild { node, index, new } => (10, a.word(*node).word(*index).word(*new)),
        Call::InsertChild { node, index, new } => (11, a.word(*node).word(*index).word(*new)),
        Call::RemoveChild { node, index } => (12, a.word(*node).word(*index)),
        Call::SpliceChildren { node, start, end, new } => {
            (13, a.word(*node).word(*start).word(*end).words(new))
        }
        Call::ReplaceWith { new, path } => (14, a.word(*new).path(path)),
        Call::Step { step, path } => (Step::FIRST_OP + *step as u32, a.path(path)),
        Call::TokenAtOffset { offset, path } => (34, a.word(*offset).path(path)),
        Call::ChildOrTokenAtRange { start, end, path } => (35, a.word(*start).word(*end).path(path)),
        Call::CoveringElement { start, end, path } => (36, a.word(*start).word(*end).path(path)),
        Call::SameElement { left, right } => (37, a.path(left).path(right)),
        Call::WhereIs { number, root } => (38, a.word(*number).word(*root)),
        Call::WalkBegin { slot, tokens, path } => (40, a.slot(*slot).word((*tokens).into()).path(path)),
        Call::WalkNext { slot } => (41, a.slot(*slot)),
        Call::WalkSkip { slot } => (42, a.slot(*slot)),
        Call::WalkMany { slot, count } => (43, a.slot(*slot).word(*count)),
        Call::TextOf { slot, path } => (50, a.slot(*slot).path(path)),
        Call::TextSlice { to, from, start, end } => {
            (51, a.slot(*to).slot(*from).word(*start).word(*end))
        }
        Call::TextLength { slot } => (52, a.slot(*slot)),
        Call::ChunkBegin { slot } => (53, a.slot(*slot)),
        Call::ChunkNext { slot } => (54, a.slot(*slot)),
        Call::TextContains { slot, byte } => (55, a.slot(*slot).word((*byte).into())),
        Call::TextFind { slot, byte } => (56, a.slot(*slot).word((*byte).into())),
        Call::TextCharAt { slot, offset } => (57, a.slot(*slot).word(*offset)),
        Call::TextEqual { left, right } => (58, a.slot(*left).slot(*right)),
        Call::Element { number } => (60, a.word(*number)),
        Call::Mark { number } => (61, a.word(*number)),
        Call::Record { number } => (64, a.word(*number)),
        Call::Unknown { op, words } => (*op, a.words(words)),
    }
}

struct Arguments(Vec<u32>);

impl Arguments {
    fn word(mut self, word: u32) -> Self {
        self.0.push(word);
        self
    }

    fn words(mut self, words: &[u32]) -> Self {
        self.0.extend_from_slice(words);
        self
    }

    fn slot(self, slot: usize) -> Self {
        self.word(slot as u32)
    }

    fn bytes(self, bytes: &[u8]) -> Self {
        let word = |chunk: &[u8]| {
            let mut padded = [0; 4];
            padded[..chunk.len()].copy_from_slice(chunk);
            u32::from_le_bytes(padded)
        };
        let words: Vec<u32> = bytes.chunks(4).map(word).collect();
        self.word(bytes.len() as u32).words(&words)
    }

    fn path(self, path: &Path) -> Self {
        let depth = path.indexes.len() as u32;
        self.word(path.root).word(depth).words(&path.indexes)
    }
}
