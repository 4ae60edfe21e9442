//! Texts of the stored sample.

use super::{after_empty_token, empties, nested, path, tree_t, Recorder, MOST};
use crate::{
    generate::exhaust::{
        all_paths,
        texts::{about_slot, equal, ranges, slice},
    },
    script::{Call, Path, SLOTS},
    sheet::SheetWriter,
};

pub fn texts(sample: &mut Recorder) {
    chunks_of_a_slice(sample);
    every_slice(sample);
    slices_of_slices(sample);
    bytes_and_offsets(sample);
    equality(sample);
    empty_slots(sample);
    kept(sample);
}

impl Recorder {
    fn text_of(&mut self, slot: usize, path: &Path) {
        let path = path.clone();
        self.put(Call::TextOf { slot, path });
    }

    fn chunks(&mut self, slot: usize, times: usize) {
        for _ in 0..times {
            self.put(Call::ChunkNext { slot });
        }
    }
}

/// Document 01's case: "S", " " and an empty chunk.
fn chunks_of_a_slice(sample: &mut Recorder) {
    let root = sample.tree_alone(tree_t());
    sample.text_of(0, &path(root, &[]));
    slice(sample, 1, 0, 1, 3);
    sample.chunks(1, 5);
    sample.chunks(0, 5);
}

/// All slices of the text of every node, childless ones among them.
fn every_slice(sample: &mut Recorder) {
    for (writer, bytes) in [
        (tree_t(), &b"S1x"[..]),
        (after_empty_token(), b" "),
        (empties(), b"Sx"),
        (nested(), b"ab"),
    ] {
        let root = sample.tree_alone(writer);
        for path in all_paths(&sample.model, root) {
            sample.text_of(0, &path);
            about_slot(sample, 0, bytes);
            if !sample.is_node(&path) {
                continue;
            }
            for (start, end) in ranges(sample, 0) {
                if slice(sample, 1, 0, start, end) {
                    about_slot(sample, 1, bytes);
                }
            }
        }
    }
}

/// A slice of a slice, in a slot of its own and in place of the first.
fn slices_of_slices(sample: &mut Recorder) {
    let root = sample.tree_alone(after_empty_token());
    sample.text_of(0, &path(root, &[]));
    for (start, end) in [(0, 5), (1, 4), (2, 5), (3, 3)] {
        slice(sample, 1, 0, start, end);
        for (inner_start, inner_end) in ranges(sample, 1) {
            slice(sample, 2, 1, inner_start, inner_end);
            sample.put(Call::TextLength { slot: 2 });
            sample.put(Call::TextFind {
                slot: 2,
                byte: b'1',
            });
            sample.put(Call::TextCharAt { slot: 2, offset: 1 });
            sample.chunks(2, 3);
        }
    }
    for (start, end) in [(1, 5), (1, 3), (1, 2), (0, 0), (0, 1), (0, 0)] {
        slice(sample, 0, 0, start, end);
        about_slot(sample, 0, b"S");
    }
}

/// Bytes at the ends and over 127, offsets and slices at the end of 32 bits.
fn bytes_and_offsets(sample: &mut Recorder) {
    let start = SheetWriter::default().start(1).token(2, b"\x00b");
    let root = sample.tree_alone(start.token(2, b"a\x7f").token(2, b"b\x00").finish());
    sample.text_of(0, &path(root, &[]));
    slice(sample, 1, 0, 1, 5);
    for slot in [0, 1] {
        about_slot(sample, slot, &[0, b'a', b'b', 126, 127, 128, 254, 255]);
        for offset in [u32::MAX - 1, u32::MAX] {
            sample.put(Call::TextCharAt { slot, offset });
        }
    }
    for from in [0, 1] {
        for (start, end) in [
            (0, u32::MAX),
            (1, u32::MAX),
            (u32::MAX, u32::MAX),
            (u32::MAX, 0),
        ] {
            slice(sample, 2, from, start, end);
            sample.put(Call::TextLength { slot: 2 });
        }
    }
}

/// One text under several roots, its chunks ending elsewhere, and slices of it.
fn equality(sample: &mut Recorder) {
    let trees = [
        tree_t(),
        after_empty_token(),
        SheetWriter::default().start(9).token(2, b"BS 12").finish(),
        split(&[b"B", b"S 1", b"2"]),
        split(&[b"B", b"S 1", b"3"]),
        split(&[b"S", b" "]),
        split(&[b"", b""]),
        SheetWriter::default().start(1).finish(),
    ];
    sample.store(MOST);
    let roots = trees.map(|writer| sample.tree(writer));
    let pieces = [(0, 5), (1, 3), (1, 4), (2, 2)];
    for left in roots {
        for right in roots {
            sample.text_of(0, &path(left, &[]));
            sample.text_of(1, &path(right, &[]));
            equal(sample, 0, 1);
        }
    }
    for left in &roots[..6] {
        sample.text_of(0, &path(*left, &[]));
        sample.text_of(2, &path(roots[3], &[]));
        for (start, end) in pieces {
            slice(sample, 1, 0, start, end);
            slice(sample, 3, 2, start, end);
            equal(sample, 1, 3);
            equal(sample, 1, 0);
            equal(sample, 2, 1);
        }
    }
    (0..SLOTS).for_each(|slot| equal(sample, slot, slot));
}

/// A node over tokens of these texts.
fn split(texts: &[&[u8]]) -> SheetWriter {
    let start = SheetWriter::default().start(1);
    texts
        .iter()
        .fold(start, |it, text| it.token(2, text))
        .finish()
}

/// Refused texts and slices empty their slot; every call on an empty one says so.
fn empty_slots(sample: &mut Recorder) {
    let root = sample.tree_alone(tree_t());
    let whole = path(root, &[]);
    let nowhere = [
        path(root, &[0]),
        path(root, &[3]),
        path(root, &[0; 65]),
        path(0, &[]),
        path(root + 1, &[]),
    ];
    for (slot, wrong) in nowhere.iter().enumerate() {
        let slot = slot % SLOTS;
        sample.text_of(slot, &whole);
        sample.text_of(slot, wrong);
        about_slot(sample, slot, b"B");
        slice(sample, (slot + 1) % SLOTS, slot, 0, 0);
        equal(sample, slot, (slot + 1) % SLOTS);
    }
    sample.text_of(0, &whole);
    sample.text_of(1, &whole);
    slice(sample, 1, 0, 4, 3);
    sample.put(Call::TextLength { slot: 1 });
    equal(sample, 0, 1);
    equal(sample, 1, 0);
    slice(sample, 0, 0, 0, 6);
    sample.put(Call::TextLength { slot: 0 });
    sample.text_of(3, &whole);
    sample.tree_alone(tree_t());
    sample.put(Call::TextLength { slot: 3 });
}

/// Chunk steps carried on over runs, edits and the taking of slices, and begun again.
fn kept(sample: &mut Recorder) {
    let root = sample.tree_alone(nested());
    sample.text_of(0, &path(root, &[]));
    sample.text_of(1, &path(root, &[3]));
    sample.chunks(0, 2);
    sample.chunks(1, 1);
    sample.tree(tree_t());
    sample.chunks(0, 1);
    let (node, index) = (root, 0);
    sample.put(Call::RemoveChild { node, index });
    slice(sample, 2, 0, 1, 3);
    sample.chunks(1, 3);
    sample.chunks(0, 1);
    sample.chunks(2, 2);
    sample.put(Call::ChunkBegin { slot: 0 });
    sample.chunks(0, 9);
    sample.chunks(2, 9);
    slice(sample, 2, 2, 0, 1);
    sample.chunks(2, 4);
    sample.text_of(1, &path(root, &[0]));
    sample.chunks(1, 4);
}

/// The text of many children of one byte each.
pub fn along(sample: &mut Recorder, whole: &Path) {
    sample.text_of(0, whole);
    sample.chunks(0, 3);
    for (start, end) in [
        (0, 3_999),
        (1_999, 2_001),
        (3_998, 3_999),
        (3_999, 3_999),
        (0, 4_000),
    ] {
        slice(sample, 1, 0, start, end);
        sample.put(Call::TextLength { slot: 1 });
        sample.chunks(1, 5);
        for byte in *b"ab" {
            sample.put(Call::TextContains { slot: 1, byte });
            sample.put(Call::TextFind { slot: 1, byte });
        }
        for offset in [0, 2, 3_998, 3_999] {
            sample.put(Call::TextCharAt { slot: 1, offset });
        }
        equal(sample, 0, 1);
    }
}

/// The last bytes of a text of 4,294,967,295; what goes over all of it is not asked.
pub fn far_end(sample: &mut Recorder, whole: &Path) {
    let (end, path) = (u32::MAX, whole.clone());
    sample.put(Call::TokenAtOffset { offset: end, path });
    sample.text_of(0, whole);
    sample.put(Call::TextLength { slot: 0 });
    sample.chunks(0, 1);
    for (start, end) in [
        (end, end),
        (end - 2, end),
        (end - 21_846, end - 21_844),
        (end, 0),
    ] {
        slice(sample, 1, 0, start, end);
        about_slot(sample, 1, b"ab");
    }
}
