//! What the tests have in common. Every call is put to both readings, which must agree, so an
//! expected reply is asserted of each.

// Each test file uses its own part of this.
#![allow(dead_code)]

use oracle::{
    adapter::Adapter,
    script::{Call, Path, Step},
    sheet::SheetWriter,
};

#[derive(Default)]
pub struct Both(Adapter);

impl Both {
    /// The reply of both readings, as its lines.
    #[track_caller]
    pub fn ask(&mut self, call: Call) -> String {
        let answer = self.0.answer(&call);
        assert_eq!(answer.rowan, Ok(answer.model.clone()), "{call}");
        answer.model.to_string()
    }

    #[track_caller]
    pub fn expect(&mut self, call: Call, reply: &str) {
        let shown = call.to_string();
        assert_eq!(self.ask(call), reply, "{shown}");
    }

    /// The last line of the sheet's run.
    #[track_caller]
    pub fn run(&mut self, sheet: SheetWriter, reply: &str) {
        let (sheet, text) = sheet.files();
        self.expect(run_files(sheet, text), reply);
    }

    /// All lines of the sheet's run.
    #[track_caller]
    pub fn run_events(&mut self, sheet: SheetWriter, lines: &[&str]) {
        let (sheet, text) = sheet.files();
        let each = true;
        self.expect(Call::Run { each, sheet, text }, &lines.join("\n"));
    }

    /// What chunk steps give, up to the end.
    #[track_caller]
    pub fn chunks(&mut self, slot: usize) -> Vec<String> {
        let mut chunks = Vec::new();
        loop {
            match self.ask(Call::ChunkNext { slot }) {
                chunk if chunk == "ended" => return chunks,
                chunk => chunks.push(chunk),
            }
        }
    }

    /// What a walk gives, up to the end: E or L with kind, start and end.
    #[track_caller]
    pub fn walk(&mut self, tokens: bool, path: Path) -> Vec<String> {
        self.expect(
            Call::WalkBegin {
                slot: 0,
                tokens,
                path,
            },
            "ok",
        );
        let mut events = Vec::new();
        loop {
            let event = self.ask(Call::WalkNext { slot: 0 });
            let words: Vec<&str> = event.split(' ').collect();
            match words[..] {
                ["ended"] => return events,
                ["enter", _, kind, start, end, ..] => {
                    events.push(format!("E {kind} {start} {end}"))
                }
                ["leave", _, kind, start, end, ..] => {
                    events.push(format!("L {kind} {start} {end}"))
                }
                _ => panic!("no event: {event}"),
            }
        }
    }
}

pub fn run_files(sheet: Vec<u8>, text: Vec<u8>) -> Call {
    let each = false;
    Call::Run { each, sheet, text }
}

pub fn sheet() -> SheetWriter {
    SheetWriter::default()
}

/// Document 01's tree T: kind 1 over "BS" (2), " " (3), "12" (4). Its tokens are the records 0 to
/// 2 of an empty store, its root 3.
pub fn tree_t() -> SheetWriter {
    sheet()
        .start(1)
        .token(2, b"BS")
        .token(3, b" ")
        .token(4, b"12")
        .finish()
}

/// Both readings with tree T in an empty store.
pub fn with_tree_t() -> Both {
    let mut both = Both::default();
    both.run(tree_t(), "root 3 store 4 3 5");
    both
}

pub fn path(root: u32, indexes: &[u32]) -> Path {
    Path {
        root,
        indexes: indexes.to_vec(),
    }
}

pub fn step(step: Step, root: u32, indexes: &[u32]) -> Call {
    Call::Step {
        step,
        path: path(root, indexes),
    }
}

pub fn token_at(offset: u32, root: u32, indexes: &[u32]) -> Call {
    Call::TokenAtOffset {
        offset,
        path: path(root, indexes),
    }
}

pub fn child_at(start: u32, end: u32, root: u32, indexes: &[u32]) -> Call {
    Call::ChildOrTokenAtRange {
        start,
        end,
        path: path(root, indexes),
    }
}

pub fn covering(start: u32, end: u32, root: u32, indexes: &[u32]) -> Call {
    Call::CoveringElement {
        start,
        end,
        path: path(root, indexes),
    }
}

pub fn same(left: Path, right: Path) -> Call {
    Call::SameElement { left, right }
}

pub fn where_is(number: u32, root: u32) -> Call {
    Call::WhereIs { number, root }
}

pub fn store(records: u32, places: u32, bytes: u32) -> Call {
    Call::Store {
        records,
        places,
        bytes,
    }
}

pub fn replace_child(node: u32, index: u32, new: u32) -> Call {
    Call::ReplaceChild { node, index, new }
}

pub fn insert_child(node: u32, index: u32, new: u32) -> Call {
    Call::InsertChild { node, index, new }
}

pub fn remove_child(node: u32, index: u32) -> Call {
    Call::RemoveChild { node, index }
}

pub fn splice(node: u32, start: u32, end: u32, new: &[u32]) -> Call {
    Call::SpliceChildren {
        node,
        start,
        end,
        new: new.to_vec(),
    }
}

pub fn replace_with(new: u32, root: u32, indexes: &[u32]) -> Call {
    Call::ReplaceWith {
        new,
        path: path(root, indexes),
    }
}

pub fn text_of(slot: usize, root: u32, indexes: &[u32]) -> Call {
    Call::TextOf {
        slot,
        path: path(root, indexes),
    }
}

pub fn slice(to: usize, from: usize, start: u32, end: u32) -> Call {
    Call::TextSlice {
        to,
        from,
        start,
        end,
    }
}

pub fn walk_begin(tokens: bool, root: u32, indexes: &[u32]) -> Call {
    Call::WalkBegin {
        slot: 0,
        tokens,
        path: path(root, indexes),
    }
}

pub const WALK_NEXT: Call = Call::WalkNext { slot: 0 };
pub const WALK_SKIP: Call = Call::WalkSkip { slot: 0 };
