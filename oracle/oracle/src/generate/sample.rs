//! The stored sample: runs of sheets at and past every limit, all sheets of few events, queries,
//! edits, walks and texts of chosen trees, and random calls, each on a store of its own.

mod edits;
mod queries;
mod texts;
mod walks;

use super::{
    collisions::{ZERO_NODES, ZERO_TOKENS},
    exhaust::{all_sheets, run_twice},
    recorder::{Recorder, MOST},
    script::script,
    sheets::Files,
    Profile,
};
use crate::{
    script::{size, Call, Path},
    sheet::{Event, SheetWriter},
};

/// More places than a store uses.
const MORE: [u32; 3] = [70_000; 3];

/// All sheets of up to so many events.
const SHORT: usize = 3;

/// How many random scripts are cut to how many bytes.
const SHEET_SCRIPTS: u64 = 60;
const SHEET_BYTES: usize = 1_200;

/// The same of scripts of all calls, with the fewest calls that are kept of one.
const MIXED_SCRIPTS: usize = 40;
const MIXED_BYTES: usize = 2_400;
const MIXED_CALLS: usize = 60;

/// The calls of the sample.
pub fn sample() -> Vec<Call> {
    let mut sample = Recorder::default();
    malformed(&mut sample);
    bad_events(&mut sample);
    bad_text(&mut sample);
    builder_rules(&mut sample);
    limits(&mut sample);
    sharing(&mut sample);
    small_stores(&mut sample);
    full_stores(&mut sample);
    for run in all_sheets(SHORT) {
        for call in run_twice(&run) {
            sample.put(call);
        }
    }
    for seed in 1..=SHEET_SCRIPTS {
        sample.store(MOST);
        sample.random_sheets(seed);
        sample.ask();
    }
    queries::queries(&mut sample);
    edits::edits(&mut sample);
    walks::walks(&mut sample);
    texts::texts(&mut sample);
    for calls in mixed_scripts() {
        sample.store(MOST);
        calls.into_iter().for_each(|it| sample.put_settled(it));
        sample.all_records();
    }
    sample.calls
}

/// The first calls of random scripts of all calls.
fn mixed_scripts() -> impl Iterator<Item = Vec<Call>> {
    let first_calls = |seed| first_bytes(script(seed, Profile::All), MIXED_BYTES);
    let is_kept = |calls: &Vec<Call>| calls.len() >= MIXED_CALLS;
    (1..).map(first_calls).filter(is_kept).take(MIXED_SCRIPTS)
}

/// As many of the first calls as there is room for.
fn first_bytes(calls: Vec<Call>, most: usize) -> Vec<Call> {
    let mut bytes = 0;
    let fits = |call: &Call| {
        bytes += size(call);
        bytes <= most
    };
    calls.into_iter().take_while(fits).collect()
}

impl Recorder {
    /// Puts a call, unless its reply is free: where-is of what occurs more than once.
    fn put_settled(&mut self, call: Call) {
        match call {
            Call::WhereIs { number, root } if self.occurrences(number, root) > 1 => {}
            call => drop(self.put(call)),
        }
    }

    /// How often a record occurs under another. Children have lower numbers.
    fn occurrences(&self, number: u32, under: u32) -> usize {
        let mut counts: Vec<usize> = Vec::new();
        for record in 0..=under.min(self.record_count()) {
            let children = self.model.children(record).unwrap_or_default();
            let below = children.iter().map(|it| counts[*it as usize]);
            let below = below.fold(0, usize::saturating_add);
            counts.push(below.saturating_add(usize::from(record == number)));
        }
        counts.get(under as usize).copied().unwrap_or(0)
    }

    /// Runs a sheet on a store of its own, and answers its root.
    fn tree_alone(&mut self, writer: SheetWriter) -> u32 {
        self.store(MOST);
        self.tree(writer)
    }

    fn files(&mut self, each: bool, (sheet, text): Files) {
        self.put(Call::Run { each, sheet, text });
    }

    /// A run with a line for each event.
    fn run(&mut self, writer: SheetWriter) {
        self.files(true, writer.files());
    }

    /// The same with one line only.
    fn run_shown_briefly(&mut self, writer: SheetWriter) {
        self.files(false, writer.files());
    }

    /// A run on a store of its own, and again on what it left.
    fn case(&mut self, writer: SheetWriter) {
        self.store(MOST);
        self.run(writer.clone());
        self.run(writer);
        self.ask();
    }

    /// Asks for the last few records, and for one that is not there.
    fn ask(&mut self) {
        let records = self.model.counts().records as u32;
        for number in records.saturating_sub(3)..=records {
            self.put(Call::Element { number });
            self.put(Call::Mark { number });
        }
    }

    /// The calls of a random script that are short, up to so many bytes.
    fn random_sheets(&mut self, seed: u64) {
        let mut bytes = 0;
        for call in script(seed, Profile::Sheets) {
            if bytes + size(&call) <= SHEET_BYTES {
                bytes += size(&call);
                self.put(call);
            }
        }
    }
}

fn path(root: u32, indexes: &[u32]) -> Path {
    Path {
        root,
        indexes: indexes.to_vec(),
    }
}

/// Nodes in one another, the lowest childless: record 0 has height 1, the next 2, and on.
fn chain(height: usize) -> SheetWriter {
    let checkpoint = SheetWriter::default().checkpoint(0);
    (0..height).fold(checkpoint, |it, _| it.start_at(1, 0).finish())
}

/// Document 01's case: an empty token before "BS".
fn after_empty_token() -> SheetWriter {
    let start = SheetWriter::default().start(1).token(5, b"");
    let tokens = start.token(2, b"BS").token(3, b" ");
    tokens.token(4, b"12").finish()
}

/// Empty tokens at both ends and in a row, childless nodes between them, kind 0.
fn empties() -> SheetWriter {
    let start = SheetWriter::default().start(0).token(2, b"").token(2, b"");
    let childless = start.token(3, b"BS").start(0).finish();
    let more = childless.token(4, b"x").start(5).finish();
    more.token(0, b"").finish()
}

/// Nodes in nodes with a shared one among them, one at the end and one over an empty token.
fn nested() -> SheetWriter {
    let inner = |it: SheetWriter| it.start(2).token(3, b"a").token(4, b"").finish();
    let first = inner(SheetWriter::default().start(1)).token(5, b"b");
    let empty = first.start(0).token(4, b"").start(6).finish().finish();
    inner(empty.start(7)).finish().finish()
}

fn tree_t() -> SheetWriter {
    let tokens = |it: SheetWriter| it.token(2, b"BS").token(3, b" ").token(4, b"12");
    tokens(SheetWriter::default().start(1)).finish()
}

/// Events by their words, with a text.
fn words(events: &[(u32, u32)], text: &[u8]) -> SheetWriter {
    SheetWriter {
        events: events.to_vec(),
        text: text.to_vec(),
    }
}

/// A sheet of so many events: one node over tokens of one kind.
fn events(count: usize) -> SheetWriter {
    tokens(count - 2, |_| 2)
}

/// One node over so many tokens of one byte, each of a kind by its ordinal.
fn tokens(count: usize, kind: impl Fn(usize) -> u16) -> SheetWriter {
    let start = SheetWriter::default().start(1);
    (0..count)
        .fold(start, |it, ordinal| it.token(kind(ordinal), b"a"))
        .finish()
}

/// Refusal 1, and sheets that just pass it. A tree before and after shows that the store is kept.
fn malformed(sample: &mut Recorder) {
    let (sheet, text) = tree_t().files();
    let word = |at: usize, value: u32| {
        let mut sheet = sheet.clone();
        sheet[at..at + 4].copy_from_slice(&value.to_le_bytes());
        (sheet, text.clone())
    };
    sample.store(MOST);
    sample.run(tree_t());
    for length in [0, 4, 7, 8, sheet.len() - 1] {
        sample.files(true, (sheet[..length].to_vec(), text.clone()));
    }
    for more in [1, 8] {
        sample.files(true, ([&sheet[..], &[0; 8][..more]].concat(), text.clone()));
    }
    // the last: 8 + 8n is 48, the sheet's length, modulo 2^32
    for count in [0, 4, 6, 4_097, u32::MAX, 0x2000_0005] {
        sample.files(true, word(0, count));
    }
    for length in [0, 4, 6, 65_537, u32::MAX] {
        sample.files(true, word(4, length));
    }
    sample.files(false, (sheet.clone(), text[..4].to_vec()));
    let over = SheetWriter::default().start(1).token(2, &[b'a'; 65_537]);
    sample.run(over.finish());
    sample.run(events(4_097));
    sample.run(events(4_096));
    sample.run(tree_t());
    sample.ask();
}

/// Refusal 2, also where a higher one would apply, and what just passes it.
fn bad_events(sample: &mut Recorder) {
    let (start, finish) = (Event::Start { kind: 1 }.words(), Event::Finish.words());
    let codes = [0, 6, 7, 0xffff].map(|code| (code << 16 | 1, 0));
    let fields = [
        (start.0, 1),
        (finish.0 | 1, 0),
        (finish.0, 1),
        (4 << 16 | 1, 0),
        (4 << 16, 64),
        (4 << 16, u32::MAX),
        (5 << 16 | 1, 64),
        (5 << 16 | 1, u32::MAX),
    ];
    for bad in codes.into_iter().chain(fields) {
        sample.case(words(&[bad], b""));
        sample.case(words(&[start, bad, finish], b""));
        sample.case(words(&[start, finish, finish, bad], b""));
    }
    let checkpoint = |register| SheetWriter::default().checkpoint(register);
    sample.case(checkpoint(63).token(2, b"a").start_at(1, 63).finish());
    sample.case(checkpoint(64).token(2, b"a").start_at(1, 63).finish());
    sample.case(checkpoint(63).token(2, b"a").start_at(1, 64).finish());
}

/// Refusal 3, and bytes 127 and 128.
fn bad_text(sample: &mut Recorder) {
    let token = |length| Event::Token { kind: 2, length }.words();
    let (start, finish) = (Event::Start { kind: 1 }.words(), Event::Finish.words());
    for length in [0, 2, 3, 4, u32::MAX] {
        sample.case(words(&[start, token(length), finish], b"abc"));
    }
    for text in [b"a\x7fb", b"a\x80b", b"\xffab", b"ab\x80"] {
        sample.case(words(&[start, token(3), finish], text));
        sample.case(words(&[start, token(2), token(1), finish], text));
    }
    // text left over comes before the rule of `finish`
    sample.case(words(&[], b"a"));
    sample.case(words(&[start], b"\x80"));
}

/// Refusals 11, 12 and 13, and what the builder's rules let pass.
fn builder_rules(sample: &mut Recorder) {
    let new = SheetWriter::default;
    let a = |it: SheetWriter| it.token(2, b"a");
    sample.case(new());
    sample.case(new().finish());
    sample.case(new().start(1).finish().finish());
    sample.case(new().start(1));
    sample.case(a(new()));
    sample.case(a(new()).start(1).finish());
    sample.case(new().start(1).finish().start(2).finish());
    sample.case(new().start(1).start(2).finish());
    sample.case(a(new().start(1)).start_at(2, 0));
    // a checkpoint past what waits, before the open node, stale and fitting again, overwritten
    sample.case(a(a(new().start(1))).checkpoint(0).finish().start_at(2, 0));
    sample.case(a(new().checkpoint(0)).start(1).start_at(2, 0));
    let stale = a(a(new().start(1)).checkpoint(0))
        .finish()
        .start(3)
        .finish();
    sample.case(stale.start_at(4, 0).finish());
    let twice = a(a(new().checkpoint(0)).checkpoint(0));
    sample.case(twice.start_at(1, 0).finish().checkpoint(1).start_at(3, 1));
    sample.case(
        a(new().checkpoint(0))
            .start_at(1, 0)
            .start_at(2, 0)
            .finish(),
    );
    // registers and waiting elements start anew with each run
    sample.store(MOST);
    sample.run(a(new().checkpoint(0)));
    sample.run(a(new()).start_at(1, 0));
    sample.run(tree_t());
}

/// Refusal 14: 64 and 65 open nodes, and heights 64 and 65.
fn limits(sample: &mut Recorder) {
    let opened = |count| (0..count).fold(SheetWriter::default(), |it, _| it.start(1));
    let finished = |it: SheetWriter, count| (0..count).fold(it, |it, _| it.finish());
    sample.case(finished(opened(64), 64));
    sample.case(finished(opened(65), 65));
    sample.case(opened(64).checkpoint(0).start_at(1, 0));
    sample.case(opened(63).checkpoint(0).start_at(1, 0));
    let checkpoint = SheetWriter::default().checkpoint(0);
    for start in [checkpoint.clone(), checkpoint.token(2, b"a")] {
        for height in [64, 65] {
            let wrapped = |it: SheetWriter, _| it.start_at(1, 0).finish();
            sample.case((0..height).fold(start.clone(), wrapped));
        }
    }
}

/// Which elements share a record: three and four children, hash 0, equal hashes, kind 0.
fn sharing(sample: &mut Recorder) {
    let node = |it: SheetWriter, count| {
        let start = it.start(2);
        (0..count).fold(start, |it, _| it.token(3, b"a")).finish()
    };
    for count in [0, 1, 3, 4] {
        let twice = node(node(SheetWriter::default().start(1), count), count);
        sample.case(twice.finish());
    }
    for kind in [0, 1] {
        let empty = |it: SheetWriter| it.start(kind).finish();
        let over = |it: SheetWriter| empty(it.start(5)).finish();
        sample.case(over(over(SheetWriter::default().start(1))).finish());
    }
    for more in ["", "x"] {
        let text = |text: &[u8]| [text, more.as_bytes()].concat();
        let all = |it| {
            ZERO_TOKENS.iter().fold(it, |it: SheetWriter, token| {
                it.start(5).token(token.0, &text(token.1)).finish()
            })
        };
        sample.case(all(all(SheetWriter::default().start(1))).finish());
    }
    let all = |it| {
        ZERO_NODES
            .iter()
            .fold(it, |it: SheetWriter, (kind, token)| {
                let inner = it.start(5).start(*kind).token(token.0, token.1);
                inner.finish().finish()
            })
    };
    sample.case(all(all(SheetWriter::default().start(1))).finish());
}

/// Refusal 15: tree T in just its places, and with one record, child place or byte too few. What is
/// found needs none.
fn small_stores(sample: &mut Recorder) {
    for short in [
        [0, 0, 0],
        [1, 0, 0],
        [0, 1, 0],
        [0, 0, 1],
        [3, 0, 0],
        [4, 3, 5],
    ] {
        sample.store([4 - short[0], 3 - short[1], 5 - short[2]]);
        sample.run(tree_t());
        sample.run(tree_t());
        // an element that is found, an empty token, a childless node, a node over what is found
        let found = |it: SheetWriter| it.token(2, b"BS");
        sample.run(found(SheetWriter::default()));
        sample.run(SheetWriter::default().token(2, b""));
        sample.run(SheetWriter::default().start(1).finish());
        sample.run(found(SheetWriter::default().start(1)).finish());
        sample.ask();
    }
}

/// The same at the most that a store uses, in places beyond that.
fn full_stores(sample: &mut Recorder) {
    // 8,192 records: the second sheet's node is the 8,190th
    sample.store(MORE);
    sample.run_shown_briefly(tokens(4_094, |ordinal| ordinal as u16));
    sample.run_shown_briefly(tokens(4_094, |ordinal| 4_094 + ordinal as u16));
    let pair = |kind| SheetWriter::default().start(7).token(kind, b"b").finish();
    sample.run(pair(1));
    sample.run(pair(1));
    sample.run(pair(2));
    sample.run(SheetWriter::default().start(8).finish());
    sample.ask();
    // a childless node needs a record all the same, and the root itself none
    let (node, new) = (4_094, Vec::new());
    let (start, end) = (0, 4_094);
    sample.put(Call::SpliceChildren {
        node,
        start,
        end,
        new,
    });
    let path = path(node, &[]);
    sample.put(Call::ReplaceWith { new: node, path });
    // 16,384 child places: a node of 4,094 and three copies, and 8 more
    sample.store(MORE);
    sample.run_shown_briefly(tokens(4_094, |_| 2));
    for _ in 0..3 {
        let (node, index, new) = (1, 4_094, 0);
        sample.put(Call::ReplaceChild { node, index, new });
    }
    sample.run(tokens(9, |_| 2));
    sample.run(tokens(8, |_| 2));
    sample.run(tokens(1, |_| 2));
    sample.run(tokens(0, |_| 2));
    sample.ask();
    // 65,536 bytes
    sample.store(MORE);
    let long = |length| {
        SheetWriter::default()
            .start(1)
            .token(2, &vec![b'a'; length])
    };
    sample.run(long(65_535).token(3, b"b").finish());
    sample.run(long(1).finish());
    sample.run(
        SheetWriter::default()
            .start(1)
            .token(3, b"b")
            .token(2, b"")
            .finish(),
    );
    sample.ask();
    // an edit needs no byte
    let (node, index, new) = (2, 0, 1);
    sample.put(Call::ReplaceChild { node, index, new });
}
