//! Random sheets: well-formed ones in several styles, and damaged ones.

use super::{
    collisions::{ZERO_NODES, ZERO_TOKENS},
    Random,
};
use crate::sheet::{Event, Sheet, SheetWriter};

const TEXTS: [&[u8]; 9] = [b"", b"", b"a", b"b", b"BS", b" ", b"12", b"\x7f", b"abcabc"];

/// A sheet's bytes and its text.
pub type Files = (Vec<u8>, Vec<u8>);

pub fn random_sheet(random: &mut Random) -> Files {
    let writer = match random.below(100) {
        0..=59 => bushy(random, 40),
        60..=71 => bushy(random, 200),
        72..=78 => chain(random),
        79..=86 => repeats(random),
        87..=92 => loose(random),
        93..=95 => wide(random, 300),
        96 => wide(random, 4_096),
        97 => fill(random),
        _ => SheetWriter::default(),
    };
    if random.chance(20) {
        damaged(random, writer)
    } else {
        writer.files()
    }
}

/// A tree whose queries go far down or along.
pub fn deep_or_wide_sheet(random: &mut Random) -> Files {
    let writer = match random.below(6) {
        0 => broad(random),
        1 => chain(random),
        _ => comb(random),
    };
    writer.files()
}

/// A kind: mostly one of few, for sharing; 0 often, for its childless node has hash 0.
fn kind(random: &mut Random) -> u16 {
    match random.below(20) {
        0 => random.number() as u16,
        it => (it % 4) as u16,
    }
}

fn token(random: &mut Random, writer: SheetWriter) -> SheetWriter {
    if random.chance(2) {
        let (kind, text) = *random.pick(&ZERO_TOKENS);
        let more = if random.chance(50) { "x" } else { "" };
        return writer.token(kind, &[text, more.as_bytes()].concat());
    }
    let kind = kind(random);
    if random.chance(5) {
        let length = random.below(40);
        let text: Vec<u8> = (0..length).map(|_| random.below(128) as u8).collect();
        return writer.token(kind, &text);
    }
    let text = *random.pick(&TEXTS);
    writer.token(kind, text)
}

/// The builder's list lengths, to know which checkpoints fit.
#[derive(Default)]
struct Lengths {
    children: usize,
    parents: Vec<usize>,
    registers: Vec<(u32, usize)>,
}

impl Lengths {
    fn finish(&mut self) {
        self.children = self.parents.pop().unwrap_or(0) + 1;
    }

    fn fitting(&self) -> Vec<u32> {
        let least = self.parents.last().copied().unwrap_or(0);
        let fits = |it: &&(u32, usize)| (least..=self.children).contains(&it.1);
        self.registers.iter().filter(fits).map(|it| it.0).collect()
    }
}

/// A tree of any shape under one root, with checkpoints.
fn bushy(random: &mut Random, most: usize) -> SheetWriter {
    let mut lengths = Lengths::default();
    let mut writer = SheetWriter::default();
    let wrap_at_end = random.chance(30);
    if wrap_at_end {
        writer = writer.checkpoint(63);
    } else {
        writer = writer.start(kind(random));
        lengths.parents.push(0);
    }
    for _ in 0..random.below(most) {
        writer = bushy_event(random, writer, &mut lengths);
    }
    while lengths.parents.len() > usize::from(!wrap_at_end) {
        writer = writer.finish();
        lengths.parents.pop();
    }
    if wrap_at_end {
        writer = writer.start_at(kind(random), 63);
    }
    writer.finish()
}

fn bushy_event(random: &mut Random, writer: SheetWriter, lengths: &mut Lengths) -> SheetWriter {
    match random.below(12) {
        0..=3 => {
            lengths.children += 1;
            token(random, writer)
        }
        4..=6 if lengths.parents.len() < 60 => {
            lengths.parents.push(lengths.children);
            writer.start(kind(random))
        }
        7..=9 if lengths.parents.len() > 1 => {
            lengths.finish();
            writer.finish()
        }
        10 if random.chance(10) => {
            lengths.children += 1;
            let (kind, token) = *random.pick(&ZERO_NODES);
            writer.start(kind).token(token.0, token.1).finish()
        }
        10 => {
            let register = random.below(62) as u32;
            lengths.registers.retain(|it| it.0 != register);
            lengths.registers.push((register, lengths.children));
            writer.checkpoint(register)
        }
        11 if lengths.parents.len() < 60 => match lengths.fitting()[..] {
            [] => writer,
            ref fitting => {
                let register = *random.pick(fitting);
                let at = lengths.registers.iter().find(|it| it.0 == register);
                lengths.parents.push(at.map_or(0, |it| it.1));
                writer.start_at(kind(random), register)
            }
        },
        _ => writer,
    }
}

/// Nodes in one another, near the limits of open nodes and height.
pub fn chain(random: &mut Random) -> SheetWriter {
    let depth = *random.pick(&[3, 20, 62, 63, 64, 65, 66]);
    let kind = kind(random);
    let mut writer = SheetWriter::default().checkpoint(0);
    if random.chance(50) {
        writer = token(random, writer);
    }
    if random.chance(50) {
        for _ in 0..depth {
            writer = writer.start_at(kind, 0).finish();
        }
        return writer;
    }
    for _ in 0..depth {
        writer = writer.start(kind);
    }
    for _ in 0..depth {
        writer = writer.finish();
    }
    writer
}

/// Nodes in one another with tokens, mostly few, and childless nodes on both sides.
fn comb(random: &mut Random) -> SheetWriter {
    let depth = *random.pick(&[3, 8, 20, 62, 63, 64]);
    let beside = *random.pick(&[5, 30, 70]);
    let mut writer = SheetWriter::default();
    for open in 1..=depth {
        writer = writer.start(kind(random));
        writer = teeth(random, writer, beside, open);
    }
    for open in (1..=depth).rev() {
        writer = teeth(random, writer, beside, open).finish();
    }
    writer
}

fn teeth(random: &mut Random, mut writer: SheetWriter, chance: usize, open: usize) -> SheetWriter {
    while random.chance(chance) {
        // a node more could not be opened in the 64th
        writer = match random.chance(15) && open < 64 {
            true => writer.start(kind(random)).finish(),
            false => token(random, writer),
        };
    }
    writer
}

/// One node over about 4,000 children, some of them nodes.
fn broad(random: &mut Random) -> SheetWriter {
    let mut writer = SheetWriter::default().start(kind(random));
    while writer.events.len() < 4_090 {
        let node = kind(random);
        writer = match random.below(100) {
            0 => writer.start(node).finish(),
            1 => token(random, writer.start(node)).finish(),
            _ => token(random, writer),
        };
    }
    writer.finish()
}

/// One subtree again and again, so that much is shared.
fn repeats(random: &mut Random) -> SheetWriter {
    let child_count = random.between(0, 5);
    let kind = kind(random);
    let texts: Vec<&[u8]> = (0..child_count).map(|_| *random.pick(&TEXTS)).collect();
    let mut writer = SheetWriter::default().start(1);
    for _ in 0..random.between(1, 12) {
        writer = writer.start(kind);
        for text in &texts {
            writer = writer.token(2, text);
        }
        writer = writer.finish();
    }
    writer.finish()
}

/// Events with no regard to the rules: most are refused somewhere.
fn loose(random: &mut Random) -> SheetWriter {
    let mut writer = SheetWriter::default();
    for _ in 0..random.below(14) {
        writer = match random.below(8) {
            0..=2 => token(random, writer),
            3 => writer.start(kind(random)),
            4 | 5 => writer.finish(),
            6 => writer.checkpoint(random.below(3) as u32),
            _ => writer.start_at(kind(random), random.below(3) as u32),
        };
    }
    writer
}

/// One node over many tokens; up to one event more than a sheet may have.
fn wide(random: &mut Random, most: usize) -> SheetWriter {
    let tokens = match most {
        4_096 => random.between(4_090, 4_095),
        _ => random.below(most),
    };
    let mut writer = SheetWriter::default().start(1);
    for _ in 0..tokens {
        writer = token(random, writer);
    }
    writer.finish()
}

/// Many different tokens, some long, to use up a store.
fn fill(random: &mut Random) -> SheetWriter {
    let (tokens, length) = *random.pick(&[(4_000, 1), (4_000, 16), (30, 2_000), (1, 65_536)]);
    let mut writer = SheetWriter::default().start(1);
    for _ in 0..tokens {
        let byte = random.below(128) as u8;
        writer = writer.token(random.number() as u16, &vec![byte; length]);
    }
    writer.finish()
}

/// A sheet with something changed that often is not to be.
fn damaged(random: &mut Random, mut writer: SheetWriter) -> Files {
    if random.chance(70) && !writer.events.is_empty() {
        damage_event(random, &mut writer.events);
    }
    let (mut sheet, mut text) = writer.files();
    match random.below(16) {
        0 => sheet.truncate(random.below(sheet.len())),
        1 => sheet.extend_from_slice(&[0; 8][..random.between(1, 8)]),
        2 => sheet[random.between(0, 7)] ^= 1 << random.below(8),
        3 => text.push(b'x'),
        4 => text.truncate(random.below(text.len() + 1)),
        5 | 6 => {
            text.extend_from_slice(b"left");
            sheet[4..8].copy_from_slice(&(text.len() as u32).to_le_bytes());
        }
        7 | 8 if !text.is_empty() => {
            let at = random.below(text.len());
            text[at] = random.between(126, 130) as u8;
        }
        9 => {
            text.truncate(text.len() / 2);
            sheet[4..8].copy_from_slice(&(text.len() as u32).to_le_bytes());
        }
        _ => {}
    }
    (sheet, text)
}

fn damage_event(random: &mut Random, events: &mut Vec<(u32, u32)>) {
    let at = random.below(events.len());
    match random.below(8) {
        0 => events[at].0 ^= 1 << random.below(32),
        1 => events[at].1 = random.word(),
        2 => events[at].0 = (random.below(8) as u32) << 16 | u32::from(kind(random)),
        3 => events.truncate(at),
        4 => drop(events.remove(at)),
        5 => events.insert(at, events[at]),
        6 => events.insert(at, Event::Finish.words()),
        _ => {
            let register = random.between(62, 65) as u32;
            events.insert(at, Event::StartAt { kind: 1, register }.words());
        }
    }
}

/// The sheet with one event changed, dropped or added, so that it shares much with the first.
pub fn varied(random: &mut Random, (sheet, text): &Files) -> Files {
    match Sheet::read(sheet) {
        Some(mut read) if !read.events.is_empty() => {
            damage_event(random, &mut read.events);
            (read.write(), text.clone())
        }
        _ => random_sheet(random),
    }
}
