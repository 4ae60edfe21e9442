//! What a call is refused with, where rowan would panic or has no such call.

use std::{error::Error, fmt};

/// Why a call is refused. Where several hold, the one that is tested first is given, which is the lowest; a refused call changes nothing.
/// More refusals may come.
#[derive(Debug, Clone, Copy, PartialEq, Eq, PartialOrd, Ord, Hash)]
#[non_exhaustive]
pub enum Refusal {
    /// 1: the sheet has more than 4,096 events or its text more than 65,536 bytes.
    Sheet = 1,
    /// 2: an event that there is not. No sheet of this crate's builder has one.
    Event = 2,
    /// 3: a token's text has a byte over 127.
    Text = 3,
    /// 4: no such element in this store, or a token where a node is wanted, or a node where a token is.
    NoSuchElement = 4,
    /// 5: an offset, a range or a child range lies outside, or starts after its end.
    Outside = 5,
    /// 6: the replacement has another kind, or is a token for a node, or a node for a token.
    OtherKind = 6,
    /// 11: nothing is open to finish.
    NothingOpen = 11,
    /// 12: the checkpoint lies before the open node, or past what is waiting.
    UnfitCheckpoint = 12,
    /// 13: what is left at the end is not one node.
    Unfinished = 13,
    /// 14: over 64 open nodes, 4,096 waiting elements or children, height 64, 1,048,576 elements or 4,294,967,295 bytes.
    TooLarge = 14,
    /// 15: the store's places are used up.
    Full = 15,
    /// 16: a skip before the walk's first event.
    SkipTooEarly = 16,
}

impl Refusal {
    /// The refusal's number, as the listing and the C header have it.
    pub fn number(self) -> usize {
        self as usize
    }

    pub(crate) fn of_number(number: usize) -> Refusal {
        use Refusal::*;
        let all = [
            Sheet,
            Event,
            Text,
            NoSuchElement,
            Outside,
            OtherKind,
            NothingOpen,
            UnfitCheckpoint,
            Unfinished,
            TooLarge,
            Full,
            SkipTooEarly,
        ];
        let found = all.into_iter().find(|refusal| refusal.number() == number);
        found.unwrap_or_else(|| {
            panic!("the archive knows refusal {number}, this crate does not: build both from one tree")
        })
    }

    fn sentence(self) -> &'static str {
        match self {
            Refusal::Sheet => "the sheet has more than 4,096 events, or its text more than 65,536 bytes",
            Refusal::Event => "there is no such event or register",
            Refusal::Text => "a token's text has a byte over 127",
            Refusal::NoSuchElement => "there is no such element in this store, or it is a token for a node, or a node for a token",
            Refusal::Outside => "an offset, a range or a child range lies outside, or starts after its end",
            Refusal::OtherKind => "the replacement has another kind, or is a token for a node, or a node for a token",
            Refusal::NothingOpen => "no node is open to be finished",
            Refusal::UnfitCheckpoint => "the checkpoint lies before the open node, or past what is waiting",
            Refusal::Unfinished => "what is left at the end is not one node",
            Refusal::TooLarge => {
                "over 64 open nodes, 4,096 waiting elements or children of a node, height 64, 1,048,576 elements, or 4,294,967,295 bytes"
            }
            Refusal::Full => "the store has no place left for the records, children or text that are needed",
            Refusal::SkipTooEarly => "the walk has given no event yet, so there is nothing to skip",
        }
    }
}

impl fmt::Display for Refusal {
    fn fmt(&self, f: &mut fmt::Formatter<'_>) -> fmt::Result {
        write!(f, "{} (refusal {})", self.sentence(), self.number())
    }
}

impl Error for Refusal {}
