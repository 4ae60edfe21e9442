//! Call scripts: the calls that are put to every implementation of document 01, and their form as
//! little-endian 32-bit words.

mod read;
mod show;
mod write;

pub use read::{read, ScriptError};
pub use write::{size, write};

/// The longest script in bytes.
pub const MAX_BYTES: usize = 1_000_000;

/// The longest sheet and text in bytes: somewhat more than document 01 lets pass.
pub const MAX_SHEET: usize = 33_000;
pub const MAX_TEXT: usize = 65_537;

/// The most indexes of a path, and the most new numbers of a splice.
pub const MAX_INDEXES: usize = 66;
pub const MAX_NEW: usize = 4_200;

/// The walk slots, and the text slots, are numbered below this.
pub const SLOTS: usize = 4;

/// A root's number and child indexes down from it.
#[derive(Debug, Clone, PartialEq, Eq)]
pub struct Path {
    pub root: u32,
    pub indexes: Vec<u32>,
}

/// The reading calls that take a path and nothing else.
#[derive(Debug, Clone, Copy, PartialEq, Eq)]
pub enum Step {
    Here,
    Parent,
    FirstChild,
    LastChild,
    FirstChildOrToken,
    LastChildOrToken,
    NextSibling,
    PrevSibling,
    NextSiblingOrToken,
    PrevSiblingOrToken,
    FirstToken,
    LastToken,
    NextToken,
    PrevToken,
}

impl Step {
    /// All of them in the order of their call numbers, which start at `Step::FIRST_OP`.
    pub const ALL: [Step; 14] = [
        Step::Here,
        Step::Parent,
        Step::FirstChild,
        Step::LastChild,
        Step::FirstChildOrToken,
        Step::LastChildOrToken,
        Step::NextSibling,
        Step::PrevSibling,
        Step::NextSiblingOrToken,
        Step::PrevSiblingOrToken,
        Step::FirstToken,
        Step::LastToken,
        Step::NextToken,
        Step::PrevToken,
    ];

    pub const FIRST_OP: u32 = 20;
}

/// What a call is about.
#[derive(Debug, Clone, Copy, PartialEq, Eq, PartialOrd, Ord)]
pub enum Group {
    Store,
    Run,
    Edit,
    /// Calls 20 to 38.
    Query,
    Walk,
    Text,
    /// Calls 60, 61 and 64.
    Record,
    Unknown,
}

impl Call {
    #[rustfmt::skip]
    pub fn group(&self) -> Group {
        match self {
            Call::Store { .. } => Group::Store,
            Call::Run { .. } => Group::Run,
            Call::ReplaceChild { .. } | Call::InsertChild { .. } | Call::RemoveChild { .. }
            | Call::SpliceChildren { .. } | Call::ReplaceWith { .. } => Group::Edit,
            Call::Step { .. } | Call::TokenAtOffset { .. } | Call::ChildOrTokenAtRange { .. }
            | Call::CoveringElement { .. } | Call::SameElement { .. } | Call::WhereIs { .. } => {
                Group::Query
            }
            Call::WalkBegin { .. } | Call::WalkNext { .. } | Call::WalkSkip { .. }
            | Call::WalkMany { .. } => Group::Walk,
            Call::TextOf { .. } | Call::TextSlice { .. } | Call::TextLength { .. }
            | Call::ChunkBegin { .. } | Call::ChunkNext { .. } | Call::TextContains { .. }
            | Call::TextFind { .. } | Call::TextCharAt { .. } | Call::TextEqual { .. } => {
                Group::Text
            }
            Call::Element { .. } | Call::Mark { .. } | Call::Record { .. } => Group::Record,
            Call::Unknown { .. } => Group::Unknown,
        }
    }
}

#[derive(Debug, Clone, PartialEq, Eq)]
#[rustfmt::skip]
pub enum Call {
    Store { records: u32, places: u32, bytes: u32 },
    /// `each`: a reply line for each accepted event too.
    Run { each: bool, sheet: Vec<u8>, text: Vec<u8> },
    ReplaceChild { node: u32, index: u32, new: u32 },
    InsertChild { node: u32, index: u32, new: u32 },
    RemoveChild { node: u32, index: u32 },
    SpliceChildren { node: u32, start: u32, end: u32, new: Vec<u32> },
    ReplaceWith { new: u32, path: Path },
    Step { step: Step, path: Path },
    TokenAtOffset { offset: u32, path: Path },
    ChildOrTokenAtRange { start: u32, end: u32, path: Path },
    CoveringElement { start: u32, end: u32, path: Path },
    SameElement { left: Path, right: Path },
    WhereIs { number: u32, root: u32 },
    WalkBegin { slot: usize, tokens: bool, path: Path },
    WalkNext { slot: usize },
    WalkSkip { slot: usize },
    /// As many calls of `WalkNext`, up to the walk's end.
    WalkMany { slot: usize, count: u32 },
    TextOf { slot: usize, path: Path },
    TextSlice { to: usize, from: usize, start: u32, end: u32 },
    TextLength { slot: usize },
    ChunkBegin { slot: usize },
    ChunkNext { slot: usize },
    TextContains { slot: usize, byte: u8 },
    TextFind { slot: usize, byte: u8 },
    TextCharAt { slot: usize, offset: u32 },
    TextEqual { left: usize, right: usize },
    Element { number: u32 },
    Record { number: u32 },
    Mark { number: u32 },
    /// A call that this reader does not know.
    Unknown { op: u32, words: Vec<u32> },
}
