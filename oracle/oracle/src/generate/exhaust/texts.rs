//! All texts of a small tree.

use super::Tree;
use crate::{
    generate::recorder::Recorder,
    model::Model,
    reply::Reply,
    script::{Call, Path},
    sheet::SheetWriter,
};

/// Both bytes that occur, and one that does not.
const BYTES: &[u8] = b"abc";

/// The text of every node, every slice of it and every slice of that, each with all that can be
/// asked of it; and which of these slices are equal.
pub(super) fn calls(tree: &Tree) -> Vec<Vec<Call>> {
    let about = tree.paths.iter().map(|path| about_path(tree, path));
    about.chain(equal_pairs(tree)).collect()
}

/// Slot 0 holds the text, 1 a slice, 2 a slice of that, 3 the same slice of the text itself.
fn about_path(tree: &Tree, path: &Path) -> Vec<Call> {
    let mut recorder = tree.recorder();
    let path = path.clone();
    recorder.put(Call::TextOf { slot: 0, path });
    about_slot(&mut recorder, 0, BYTES);
    for (start, end) in ranges(&recorder, 0) {
        if !slice(&mut recorder, 1, 0, start, end) {
            continue;
        }
        about_slot(&mut recorder, 1, BYTES);
        equal(&mut recorder, 1, 0);
        for (inner_start, inner_end) in ranges(&recorder, 1) {
            if slice(&mut recorder, 2, 1, inner_start, inner_end) {
                about_slot(&mut recorder, 2, BYTES);
                slice(&mut recorder, 3, 0, start + inner_start, start + inner_end);
                (0..=3).for_each(|other| equal(&mut recorder, 2, other));
            }
        }
    }
    recorder.calls
}

/// All starts and ends up to one past the text's length, also of wrong order; of no text a few.
pub fn ranges(recorder: &Recorder, slot: usize) -> Vec<(u32, u32)> {
    let past_end = recorder.model.text_length(slot).unwrap_or(0) + 1;
    let starts = 0..=past_end;
    starts
        .flat_map(|start| (0..=past_end).map(move |end| (start, end)))
        .collect()
}

/// Takes a slice; whether there is one.
pub fn slice(recorder: &mut Recorder, to: usize, from: usize, start: u32, end: u32) -> bool {
    let slice = Call::TextSlice {
        to,
        from,
        start,
        end,
    };
    recorder.put(slice) == Reply::Ok
}

pub fn equal(recorder: &mut Recorder, left: usize, right: usize) {
    recorder.put(Call::TextEqual { left, right });
}

/// These bytes, all offsets and one past, all chunks, the end twice, and the first chunk again.
pub fn about_slot(recorder: &mut Recorder, slot: usize, bytes: &[u8]) {
    recorder.put(Call::TextLength { slot });
    for byte in bytes.iter().copied() {
        recorder.put(Call::TextContains { slot, byte });
        recorder.put(Call::TextFind { slot, byte });
    }
    for offset in 0..=recorder.model.text_length(slot).unwrap_or(0) + 1 {
        recorder.put(Call::TextCharAt { slot, offset });
    }
    while let Reply::Chunk(_) = recorder.put(Call::ChunkNext { slot }) {}
    recorder.put(Call::ChunkNext { slot });
    recorder.put(Call::ChunkBegin { slot });
    recorder.put(Call::ChunkNext { slot });
}

/// A node's slice.
type Piece = (Path, u32, u32);

/// Equality of every slice of every node with every other, and with every slice of a second tree
/// whose tokens have two bytes, so that chunks end elsewhere.
fn equal_pairs(tree: &Tree) -> Vec<Vec<Call>> {
    let mut pieces = Vec::new();
    for path in &tree.paths {
        add_pieces(&tree.model, path, &mut pieces);
    }
    let mut with_second = tree.recorder();
    let root = with_second.tree(second_tree());
    let indexes = Vec::new();
    add_pieces(&with_second.model, &Path { root, indexes }, &mut pieces);
    let parts = pieces.chunks(LEFT_PIECES);
    parts.map(|left| equal_part(tree, left, &pieces)).collect()
}

/// So many pieces are compared with all in one part.
const LEFT_PIECES: usize = 8;

fn second_tree() -> SheetWriter {
    let start = SheetWriter::default().start(1);
    start.token(2, b"ab").token(2, b"ba").finish()
}

fn add_pieces(model: &Model, path: &Path, pieces: &mut Vec<Piece>) {
    let Some(number) = model.number_at(path) else {
        return;
    };
    let (Some(_), Some(length)) = (model.children(number), model.length(number)) else {
        return;
    };
    for start in 0..=length {
        pieces.extend((start..=length).map(|end| (path.clone(), start, end)));
    }
}

fn equal_part(tree: &Tree, left: &[Piece], all: &[Piece]) -> Vec<Call> {
    let mut recorder = tree.recorder();
    recorder.tree(second_tree());
    for piece in left {
        take(&mut recorder, 0, piece);
        for other in all {
            take(&mut recorder, 1, other);
            equal(&mut recorder, 0, 1);
        }
    }
    recorder.calls
}

/// Puts a piece into a slot.
fn take(recorder: &mut Recorder, slot: usize, (path, start, end): &Piece) {
    let path = path.clone();
    recorder.put(Call::TextOf { slot, path });
    slice(recorder, slot, slot, *start, *end);
}
