//! Replies to calls, and their lines.

use std::fmt::{self, Display};

/// An element in an answer: where it stands, and what it is.
#[derive(Debug, Clone, PartialEq, Eq)]
pub struct Element {
    pub is_node: bool,
    pub kind: u16,
    pub start: u32,
    pub end: u32,
    pub indexes: Vec<u32>,
}

/// Records, child places and text bytes in use.
#[derive(Debug, Clone, Copy, Default, PartialEq, Eq)]
pub struct Counts {
    pub records: usize,
    pub places: usize,
    pub bytes: usize,
}

/// What made a node's record.
#[derive(Debug, Clone, Copy, PartialEq, Eq)]
pub enum Maker {
    Event,
    Edit,
}

/// A refusal's number in document 01.
#[derive(Debug, Clone, Copy, PartialEq, Eq, PartialOrd, Ord)]
pub struct Refusal(pub u8);

impl Refusal {
    pub const BROKEN_SHEET: Refusal = Refusal(1);
    pub const BAD_EVENT: Refusal = Refusal(2);
    pub const BAD_TEXT: Refusal = Refusal(3);
    pub const NO_SUCH_ELEMENT: Refusal = Refusal(4);
    pub const OUT_OF_RANGE: Refusal = Refusal(5);
    pub const UNLIKE_REPLACEMENT: Refusal = Refusal(6);
    pub const NOTHING_OPEN: Refusal = Refusal(11);
    pub const UNFIT_CHECKPOINT: Refusal = Refusal(12);
    pub const NO_SINGLE_ROOT: Refusal = Refusal(13);
    pub const OVER_LIMIT: Refusal = Refusal(14);
    pub const STORE_FULL: Refusal = Refusal(15);
    pub const SKIP_BEFORE_FIRST: Refusal = Refusal(16);

    /// Whether the comparison with rowan ends here: document 01's own limits and arguments that
    /// rowan's types rule out. The other numbers stand for panics.
    pub fn outside_domain(self) -> bool {
        matches!(self.0, 1..=4 | 14..=16)
    }
}

/// What a run of a sheet answers.
#[derive(Debug, Clone, PartialEq, Eq)]
pub struct Run {
    /// For each accepted event what it yields, and the store after it.
    pub events: Vec<(Option<u32>, Counts)>,
    /// The root, or the refusal with the ordinal of its event.
    pub outcome: Result<u32, (Refusal, usize)>,
    pub store: Counts,
    /// Whether the events have lines of their own.
    pub each: bool,
}

#[derive(Debug, Clone, PartialEq, Eq)]
#[rustfmt::skip]
pub enum Reply {
    Ok,
    None,
    Yes,
    No,
    Ended,
    NoWalk,
    NoText,
    NotOffered,
    Refused(Refusal),
    Run(Run),
    Edited { outcome: Result<u32, Refusal>, store: Counts },
    Element(Element),
    Between(Element, Element),
    Enter(Element),
    Leave(Element),
    /// The replies of many steps of a walk.
    Many(Vec<Reply>),
    Found(Vec<u32>),
    Length(u32),
    Chunk(Vec<u8>),
    At(u32),
    Char(u8),
    Measured { is_node: bool, kind: u16, length: u32, size: u32, height: u32, children: u32 },
    Mark(u64),
    TokenRecord { kind: u16, text: Vec<u8> },
    NodeRecord { kind: u16, maker: Maker, children: Vec<u32> },
}

impl Reply {
    pub fn flag(yes: bool) -> Reply {
        if yes {
            Reply::Yes
        } else {
            Reply::No
        }
    }

    /// The replies of at most `count` steps, up to and with the first that is no event.
    pub fn many(count: u32, mut step: impl FnMut() -> Reply) -> Reply {
        let mut replies = Vec::new();
        for _ in 0..count {
            replies.push(step());
            if !matches!(replies.last(), Some(Reply::Enter(_) | Reply::Leave(_))) {
                break;
            }
        }
        Reply::Many(replies)
    }

    /// The refusal, if the reply is one.
    pub fn refusal(&self) -> Option<Refusal> {
        match self {
            Reply::Refused(refusal) => Some(*refusal),
            Reply::Edited { outcome, .. } => outcome.err(),
            Reply::Run(run) => run.outcome.err().map(|it| it.0),
            _ => None,
        }
    }
}

impl From<Option<Element>> for Reply {
    fn from(element: Option<Element>) -> Reply {
        element.map_or(Reply::None, Reply::Element)
    }
}

impl From<Result<Reply, Refusal>> for Reply {
    fn from(answer: Result<Reply, Refusal>) -> Reply {
        answer.unwrap_or_else(Reply::Refused)
    }
}

impl Display for Element {
    fn fmt(&self, f: &mut fmt::Formatter<'_>) -> fmt::Result {
        let what = if self.is_node { "node" } else { "token" };
        let (kind, start, end) = (self.kind, self.start, self.end);
        write!(f, "{what} {kind} {start} {end} {}", Indexes(&self.indexes))
    }
}

/// Child indexes or numbers after their count.
struct Indexes<'a>(&'a [u32]);

impl Display for Indexes<'_> {
    fn fmt(&self, f: &mut fmt::Formatter<'_>) -> fmt::Result {
        write!(f, "{}", self.0.len())?;
        self.0.iter().try_for_each(|it| write!(f, " {it}"))
    }
}

impl Display for Maker {
    fn fmt(&self, f: &mut fmt::Formatter<'_>) -> fmt::Result {
        match self {
            Maker::Event => write!(f, "event"),
            Maker::Edit => write!(f, "edit"),
        }
    }
}

impl Display for Counts {
    fn fmt(&self, f: &mut fmt::Formatter<'_>) -> fmt::Result {
        write!(f, "{} {} {}", self.records, self.places, self.bytes)
    }
}

impl Display for Run {
    fn fmt(&self, f: &mut fmt::Formatter<'_>) -> fmt::Result {
        for (yielded, store) in self.events.iter().filter(|_| self.each) {
            match yielded {
                Some(number) => writeln!(f, "e {number} {store}")?,
                None => writeln!(f, "e - {store}")?,
            }
        }
        match self.outcome {
            Ok(root) => write!(f, "root {root} store {}", self.store),
            Err((Refusal(number), ordinal)) => {
                write!(f, "refused {number} event {ordinal} store {}", self.store)
            }
        }
    }
}

/// The reply's lines, without the last newline.
#[rustfmt::skip]
impl Display for Reply {
    fn fmt(&self, f: &mut fmt::Formatter<'_>) -> fmt::Result {
        match self {
            Reply::Ok => write!(f, "ok"),
            Reply::None => write!(f, "none"),
            Reply::Yes => write!(f, "yes"),
            Reply::No => write!(f, "no"),
            Reply::Ended => write!(f, "ended"),
            Reply::NoWalk => write!(f, "no walk"),
            Reply::NoText => write!(f, "no text"),
            Reply::NotOffered => write!(f, "-"),
            Reply::Refused(refusal) => write!(f, "refused {}", refusal.0),
            Reply::Run(run) => write!(f, "{run}"),
            Reply::Edited { outcome, store } => match outcome {
                Ok(number) => write!(f, "element {number} store {store}"),
                Err(refusal) => write!(f, "refused {} store {store}", refusal.0),
            },
            Reply::Element(element) => write!(f, "{element}"),
            Reply::Between(left, right) => write!(f, "{left} {right}"),
            Reply::Enter(element) => write!(f, "enter {element}"),
            Reply::Leave(element) => write!(f, "leave {element}"),
            Reply::Many(replies) => write!(f, "{}", Many(replies)),
            Reply::Found(indexes) => write!(f, "found {}", Indexes(indexes)),
            Reply::Length(length) => write!(f, "length {length}"),
            Reply::Chunk(bytes) => write!(f, "chunk {}", Bytes(bytes)),
            Reply::At(offset) => write!(f, "at {offset}"),
            Reply::Char(byte) => write!(f, "char {byte}"),
            Reply::Measured { is_node, kind, length, size, height, children } => {
                let what = if *is_node { "node" } else { "token" };
                write!(f, "{what} {kind} {length} {size} {height} {children}")
            }
            Reply::Mark(mark) => write!(f, "mark {mark:016x}"),
            Reply::TokenRecord { kind, text } => write!(f, "token {kind} {}", Bytes(text)),
            Reply::NodeRecord { kind, maker, children } => {
                write!(f, "node {kind} {maker} {}", Indexes(children))
            }
        }
    }
}

/// Replies on one line.
struct Many<'a>(&'a [Reply]);

impl Display for Many<'_> {
    fn fmt(&self, f: &mut fmt::Formatter<'_>) -> fmt::Result {
        for (place, reply) in self.0.iter().enumerate() {
            let between = if place == 0 { "" } else { " ; " };
            write!(f, "{between}{reply}")?;
        }
        Ok(())
    }
}

/// Bytes in hexadecimal after their count.
struct Bytes<'a>(&'a [u8]);

impl Display for Bytes<'_> {
    fn fmt(&self, f: &mut fmt::Formatter<'_>) -> fmt::Result {
        write!(f, "{}", self.0.len())?;
        if !self.0.is_empty() {
            write!(f, " ")?;
        }
        self.0.iter().try_for_each(|it| write!(f, "{it:02x}"))
    }
}
