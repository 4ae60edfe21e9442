//! rowan's small enums, and sizes and ranges of text.

use std::{
    fmt,
    ops::{Bound, RangeBounds},
};

/// A node or a token.
#[derive(Debug, Clone, Copy, PartialEq, Eq, PartialOrd, Ord, Hash)]
pub enum NodeOrToken<N, T> {
    /// A node.
    Node(N),
    /// A token.
    Token(T),
}

impl<N, T> NodeOrToken<N, T> {
    /// The node, if it is one.
    pub fn into_node(self) -> Option<N> {
        match self {
            NodeOrToken::Node(node) => Some(node),
            NodeOrToken::Token(_) => None,
        }
    }

    /// The token, if it is one.
    pub fn into_token(self) -> Option<T> {
        match self {
            NodeOrToken::Node(_) => None,
            NodeOrToken::Token(token) => Some(token),
        }
    }

    /// A reference to the node, if it is one.
    pub fn as_node(&self) -> Option<&N> {
        match self {
            NodeOrToken::Node(node) => Some(node),
            NodeOrToken::Token(_) => None,
        }
    }

    /// A reference to the token, if it is one.
    pub fn as_token(&self) -> Option<&T> {
        match self {
            NodeOrToken::Node(_) => None,
            NodeOrToken::Token(token) => Some(token),
        }
    }
}

impl<N: fmt::Display, T: fmt::Display> fmt::Display for NodeOrToken<N, T> {
    fn fmt(&self, f: &mut fmt::Formatter<'_>) -> fmt::Result {
        match self {
            NodeOrToken::Node(node) => fmt::Display::fmt(node, f),
            NodeOrToken::Token(token) => fmt::Display::fmt(token, f),
        }
    }
}

/// Which way siblings are taken.
#[derive(Debug, Clone, Copy, PartialEq, Eq, PartialOrd, Ord, Hash)]
pub enum Direction {
    /// Towards the end of the text.
    Next,
    /// Towards its beginning.
    Prev,
}

/// An event of a walk.
#[derive(Debug, Copy, Clone, PartialEq, Eq)]
pub enum WalkEvent<T> {
    /// Before the element's children.
    Enter(T),
    /// After them.
    Leave(T),
}

impl<T> WalkEvent<T> {
    /// The same event of what `f` makes of its element.
    pub fn map<F: FnOnce(T) -> U, U>(self, f: F) -> WalkEvent<U> {
        match self {
            WalkEvent::Enter(it) => WalkEvent::Enter(f(it)),
            WalkEvent::Leave(it) => WalkEvent::Leave(f(it)),
        }
    }
}

/// The tokens at an offset: none, one, or the two that it lies between. An iterator over them.
#[derive(Clone, Debug)]
pub enum TokenAtOffset<T> {
    /// There is no text.
    None,
    /// The offset lies in this token, or at an end of the text.
    Single(T),
    /// The offset lies between these two.
    Between(T, T),
}

impl<T> TokenAtOffset<T> {
    /// What `f` makes of the tokens.
    pub fn map<F: Fn(T) -> U, U>(self, f: F) -> TokenAtOffset<U> {
        match self {
            TokenAtOffset::None => TokenAtOffset::None,
            TokenAtOffset::Single(it) => TokenAtOffset::Single(f(it)),
            TokenAtOffset::Between(left, right) => TokenAtOffset::Between(f(left), f(right)),
        }
    }

    /// The only token, or the right one of two.
    pub fn right_biased(self) -> Option<T> {
        match self {
            TokenAtOffset::None => None,
            TokenAtOffset::Single(token) | TokenAtOffset::Between(_, token) => Some(token),
        }
    }

    /// The only token, or the left one of two.
    pub fn left_biased(self) -> Option<T> {
        match self {
            TokenAtOffset::None => None,
            TokenAtOffset::Single(token) | TokenAtOffset::Between(token, _) => Some(token),
        }
    }
}

impl<T> Iterator for TokenAtOffset<T> {
    type Item = T;

    fn next(&mut self) -> Option<T> {
        match std::mem::replace(self, TokenAtOffset::None) {
            TokenAtOffset::None => None,
            TokenAtOffset::Single(token) => Some(token),
            TokenAtOffset::Between(left, right) => {
                *self = TokenAtOffset::Single(right);
                Some(left)
            }
        }
    }

    fn size_hint(&self) -> (usize, Option<usize>) {
        let count = match self {
            TokenAtOffset::None => 0,
            TokenAtOffset::Single(_) => 1,
            TokenAtOffset::Between(..) => 2,
        };
        (count, Some(count))
    }
}

impl<T> ExactSizeIterator for TokenAtOffset<T> {}

/// A length of text, or an offset in it, in bytes.
pub type TextSize = u32;

/// A range of text. Any two ends may be given: a call that wants them in order refuses those that are not.
#[derive(Clone, Copy, PartialEq, Eq, Hash, Default)]
pub struct TextRange {
    start: TextSize,
    end: TextSize,
}

impl TextRange {
    /// From `start` up to `end`.
    pub const fn new(start: TextSize, end: TextSize) -> TextRange {
        TextRange { start, end }
    }

    /// Nothing, at an offset.
    pub const fn empty(offset: TextSize) -> TextRange {
        TextRange { start: offset, end: offset }
    }

    /// `len` bytes from `offset`.
    pub const fn at(offset: TextSize, len: TextSize) -> TextRange {
        TextRange { start: offset, end: offset + len }
    }

    /// From 0 up to `end`.
    pub const fn up_to(end: TextSize) -> TextRange {
        TextRange { start: 0, end }
    }

    /// Where it starts.
    pub const fn start(self) -> TextSize {
        self.start
    }

    /// Where it ends.
    pub const fn end(self) -> TextSize {
        self.end
    }

    /// Its length; 0 if it starts after its end.
    pub const fn len(self) -> TextSize {
        self.end.saturating_sub(self.start)
    }

    /// Is its length 0?
    pub const fn is_empty(self) -> bool {
        self.len() == 0
    }

    /// Does the offset lie in it, its end not counted?
    pub const fn contains(self, offset: TextSize) -> bool {
        self.start <= offset && offset < self.end
    }

    /// Does the offset lie in it, its end counted?
    pub const fn contains_inclusive(self, offset: TextSize) -> bool {
        self.start <= offset && offset <= self.end
    }

    /// Does the other one lie in it?
    pub const fn contains_range(self, other: TextRange) -> bool {
        self.start <= other.start && other.end <= self.end
    }

    /// What lies in both; none if they do not even touch.
    pub fn intersect(self, other: TextRange) -> Option<TextRange> {
        let both = TextRange { start: self.start.max(other.start), end: self.end.min(other.end) };
        (both.start <= both.end).then_some(both)
    }

    /// The least that both lie in.
    pub fn cover(self, other: TextRange) -> TextRange {
        TextRange { start: self.start.min(other.start), end: self.end.max(other.end) }
    }
}

impl std::ops::Index<TextRange> for str {
    type Output = str;

    fn index(&self, range: TextRange) -> &str {
        &self[range.start as usize..range.end as usize]
    }
}

impl fmt::Debug for TextRange {
    fn fmt(&self, f: &mut fmt::Formatter<'_>) -> fmt::Result {
        write!(f, "{}..{}", self.start, self.end)
    }
}

impl From<std::ops::Range<TextSize>> for TextRange {
    fn from(range: std::ops::Range<TextSize>) -> TextRange {
        TextRange::new(range.start, range.end)
    }
}

impl RangeBounds<TextSize> for TextRange {
    fn start_bound(&self) -> Bound<&TextSize> {
        Bound::Included(&self.start)
    }

    fn end_bound(&self) -> Bound<&TextSize> {
        Bound::Excluded(&self.end)
    }
}
