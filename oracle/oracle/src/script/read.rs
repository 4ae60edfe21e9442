//! Reading of scripts.

use super::{Call, Path, Step, MAX_BYTES, MAX_INDEXES, MAX_NEW, MAX_SHEET, MAX_TEXT, SLOTS};
use std::fmt;

/// Why a file is no script, and at which call, counted from 0.
#[derive(Debug, PartialEq, Eq)]
pub struct ScriptError {
    pub call: usize,
    pub reason: String,
}

impl fmt::Display for ScriptError {
    fn fmt(&self, f: &mut fmt::Formatter<'_>) -> fmt::Result {
        write!(f, "call {}: {}", self.call, self.reason)
    }
}

/// The calls of a script.
pub fn read(bytes: &[u8]) -> Result<Vec<Call>, ScriptError> {
    let whole = |reason: String| ScriptError { call: 0, reason };
    if bytes.len() > MAX_BYTES {
        return Err(whole(format!("a script has at most {MAX_BYTES} bytes")));
    }
    if !bytes.len().is_multiple_of(4) {
        return Err(whole("a script is a list of 32-bit words".into()));
    }
    let words: Vec<u32> = bytes
        .chunks_exact(4)
        .map(|it| u32::from_le_bytes([it[0], it[1], it[2], it[3]]))
        .collect();
    let mut calls = Vec::new();
    let mut rest = Words(&words);
    while !rest.0.is_empty() {
        let call = read_call(&mut rest).map_err(|reason| ScriptError {
            call: calls.len(),
            reason,
        })?;
        calls.push(call);
    }
    Ok(calls)
}

fn read_call(script: &mut Words) -> Result<Call, String> {
    let op = script.word()?;
    let count = script.word()? as usize;
    let mut words = Words(script.words(count)?);
    let call = read_arguments(op, &mut words)?;
    match words.0.len() {
        0 => Ok(call),
        left => Err(format!("call number {op} has {left} words too many")),
    }
}

#[rustfmt::skip]
fn read_arguments(op: u32, w: &mut Words) -> Result<Call, String> {
    Ok(match op {
        1 => Call::Store { records: w.word()?, places: w.word()?, bytes: w.word()? },
        2 | 3 => Call::Run { each: op == 3, sheet: w.bytes(MAX_SHEET)?, text: w.bytes(MAX_TEXT)? },
        10 => Call::ReplaceChild { node: w.word()?, index: w.word()?, new: w.word()? },
        11 => Call::InsertChild { node: w.word()?, index: w.word()?, new: w.word()? },
        12 => Call::RemoveChild { node: w.word()?, index: w.word()? },
        13 => Call::SpliceChildren {
            node: w.word()?, start: w.word()?, end: w.word()?, new: w.new_numbers()?,
        },
        14 => Call::ReplaceWith { new: w.word()?, path: w.path()? },
        20..=33 => Call::Step { step: Step::ALL[(op - Step::FIRST_OP) as usize], path: w.path()? },
        34 => Call::TokenAtOffset { offset: w.word()?, path: w.path()? },
        35 => Call::ChildOrTokenAtRange { start: w.word()?, end: w.word()?, path: w.path()? },
        36 => Call::CoveringElement { start: w.word()?, end: w.word()?, path: w.path()? },
        37 => Call::SameElement { left: w.path()?, right: w.path()? },
        38 => Call::WhereIs { number: w.word()?, root: w.word()? },
        40 => Call::WalkBegin { slot: w.slot()?, tokens: w.flag()?, path: w.path()? },
        41 => Call::WalkNext { slot: w.slot()? },
        42 => Call::WalkSkip { slot: w.slot()? },
        43 => Call::WalkMany { slot: w.slot()?, count: w.word()? },
        50 => Call::TextOf { slot: w.slot()?, path: w.path()? },
        51 => Call::TextSlice { to: w.slot()?, from: w.slot()?, start: w.word()?, end: w.word()? },
        52 => Call::TextLength { slot: w.slot()? },
        53 => Call::ChunkBegin { slot: w.slot()? },
        54 => Call::ChunkNext { slot: w.slot()? },
        55 => Call::TextContains { slot: w.slot()?, byte: w.byte()? },
        56 => Call::TextFind { slot: w.slot()?, byte: w.byte()? },
        57 => Call::TextCharAt { slot: w.slot()?, offset: w.word()? },
        58 => Call::TextEqual { left: w.slot()?, right: w.slot()? },
        60 => Call::Element { number: w.word()? },
        61 => Call::Mark { number: w.word()? },
        64 => Call::Record { number: w.word()? },
        _ => Call::Unknown { op, words: w.rest() },
    })
}

/// Words that are still to be read.
struct Words<'a>(&'a [u32]);

impl<'a> Words<'a> {
    fn words(&mut self, count: usize) -> Result<&'a [u32], String> {
        if count > self.0.len() {
            return Err(format!("{} words are left, {count} needed", self.0.len()));
        }
        let (taken, rest) = self.0.split_at(count);
        self.0 = rest;
        Ok(taken)
    }

    fn word(&mut self) -> Result<u32, String> {
        Ok(self.words(1)?[0])
    }

    fn rest(&mut self) -> Vec<u32> {
        std::mem::take(&mut self.0).to_vec()
    }

    /// A count that starts a list.
    fn count(&mut self, most: usize) -> Result<usize, String> {
        match self.word()? as usize {
            count if count <= most => Ok(count),
            count => Err(format!("{count} where at most {most} are allowed")),
        }
    }

    fn new_numbers(&mut self) -> Result<Vec<u32>, String> {
        match self.0.len() {
            count if count <= MAX_NEW => Ok(self.rest()),
            count => Err(format!("{count} where at most {MAX_NEW} are allowed")),
        }
    }

    fn bytes(&mut self, most: usize) -> Result<Vec<u8>, String> {
        let count = self.count(most)?;
        let words = self.words(count.div_ceil(4))?;
        let mut bytes: Vec<u8> = words.iter().flat_map(|it| it.to_le_bytes()).collect();
        if bytes[count..].iter().any(|it| *it != 0) {
            return Err("bytes are padded with bytes other than 0".into());
        }
        bytes.truncate(count);
        Ok(bytes)
    }

    fn path(&mut self) -> Result<Path, String> {
        let root = self.word()?;
        let depth = self.count(MAX_INDEXES)?;
        let indexes = self.words(depth)?.to_vec();
        Ok(Path { root, indexes })
    }

    fn slot(&mut self) -> Result<usize, String> {
        match self.word()? as usize {
            slot if slot < SLOTS => Ok(slot),
            slot => Err(format!("there is no slot {slot}")),
        }
    }

    fn flag(&mut self) -> Result<bool, String> {
        match self.word()? {
            0 => Ok(false),
            1 => Ok(true),
            mode => Err(format!("a walk has no mode {mode}")),
        }
    }

    fn byte(&mut self) -> Result<u8, String> {
        let word = self.word()?;
        u8::try_from(word).map_err(|_| format!("{word} is no byte"))
    }
}
