//! rowan's `SyntaxText`: the text of a node, or a slice of it.

use std::{
    fmt,
    ops::{Bound, RangeBounds},
};

use crate::{
    calls::{Chunks, Words},
    cursor::{Handle, SyntaxNode},
    ffi,
    indexes::Place,
    refusal::Refusal,
    utility_types::{TextRange, TextSize},
};

/// The text of a node, or a slice of it, in the chunks of its tokens. Offsets count from where the text or slice starts.
///
/// ```
/// use notes_tree::{GreenNodeBuilder, Refusal, Store, SyntaxKind, SyntaxNode};
///
/// let mut store = Store::new();
/// let mut builder = GreenNodeBuilder::new();
/// builder.start_node(SyntaxKind(1));
/// builder.token(SyntaxKind(2), "BS");
/// builder.token(SyntaxKind(3), " ");
/// builder.token(SyntaxKind(4), "12");
/// builder.finish_node();
/// let root = builder.finish(&mut store)?;
///
/// let text = SyntaxNode::new_root(&store, root)?.text();
/// let slice = text.slice(1..3)?;
/// let mut chunks = Vec::new();
/// slice.for_each_chunk(|chunk| chunks.push(chunk.to_string()));
/// assert_eq!(chunks, ["S", " ", ""]);
/// assert_eq!(slice.find_char(' '), Some(1));
/// assert_eq!(text.char_at(4), Some('2'));
/// assert_eq!(text.slice(1..6).unwrap_err(), Refusal::Outside);
/// # Ok::<(), Box<dyn std::error::Error>>(())
/// ```
#[derive(Clone)]
pub struct SyntaxText<'s> {
    node: SyntaxNode<'s>,
    /// Counted from where the root starts.
    range: TextRange,
}

/// Says why a question is not refused: a text lies within its node.
const WITHIN: &str = "a text lies within its node";

impl<'s> SyntaxText<'s> {
    pub(crate) fn new(node: SyntaxNode<'s>) -> SyntaxText<'s> {
        let range = node.text_range();
        SyntaxText { node, range }
    }

    /// The length, in bytes. No call.
    pub fn len(&self) -> TextSize {
        self.range.len()
    }

    /// Is the length 0? No call.
    pub fn is_empty(&self) -> bool {
        self.range.is_empty()
    }

    /// Does the character occur?
    pub fn contains_char(&self, c: char) -> bool {
        self.ask(ffi::CONTAINS_CHAR, c as usize, &mut Words::default()) == ffi::YES
    }

    /// The first offset at which the character occurs.
    pub fn find_char(&self, c: char) -> Option<TextSize> {
        let mut words = Words::default();
        let outcome = self.ask(ffi::FIND_CHAR, c as usize, &mut words);
        (outcome == ffi::NUMBER).then_some(words[0] as TextSize)
    }

    /// The character that starts at an offset, if the text goes on there.
    pub fn char_at(&self, offset: TextSize) -> Option<char> {
        let mut words = Words::default();
        let outcome = self.ask(ffi::CHAR_AT, offset as usize, &mut words);
        (outcome == ffi::NUMBER).then_some(char::from(words[0] as u8))
    }

    /// The part in a range of offsets. [`Refusal::Outside`] if that is not within the text, or starts after its end.
    pub fn slice<R: RangeBounds<TextSize>>(&self, range: R) -> Result<SyntaxText<'s>, Refusal> {
        // A bound past every offset is outside of every text.
        let from = match range.start_bound() {
            Bound::Included(from) => *from,
            Bound::Excluded(before) => before.checked_add(1).ok_or(Refusal::Outside)?,
            Bound::Unbounded => 0,
        };
        let to = match range.end_bound() {
            Bound::Included(last) => last.checked_add(1).ok_or(Refusal::Outside)?,
            Bound::Excluded(to) => *to,
            Bound::Unbounded => self.len(),
        };
        let (start, end) = self.ends();
        let mut words = Words::default();
        self.put(ffi::SLICE, [start, end, from as usize, to as usize, 0, 0, 0, 0], &mut [0; 64], &mut words)?;
        let range = TextRange::new(words[0] as TextSize, words[1] as TextSize);
        Ok(SyntaxText { node: self.node.clone(), range })
    }

    /// Folds the chunks up to the first error: one for each token in order that meets the text, touching included, so empty
    /// chunks occur.
    pub fn try_fold_chunks<T, F, E>(&self, init: T, f: F) -> Result<T, E>
    where
        F: FnMut(T, &str) -> Result<T, E>,
    {
        self.chunks().try_fold(init, f)
    }

    /// Calls `f` with each chunk up to the first error.
    pub fn try_for_each_chunk<F, E>(&self, f: F) -> Result<(), E>
    where
        F: FnMut(&str) -> Result<(), E>,
    {
        self.chunks().try_for_each(f)
    }

    /// Calls `f` with each chunk.
    pub fn for_each_chunk<F: FnMut(&str)>(&self, f: F) {
        self.chunks().for_each(f);
    }

    fn ends(&self) -> (usize, usize) {
        (self.range.start() as usize, self.range.end() as usize)
    }

    fn chunks(&self) -> impl Iterator<Item = &str> {
        let Handle { store, root, ref at } = self.node.0;
        Chunks::new(&store.places, root, &at.path, self.range)
    }

    /// Puts a question of this text's node, with the other text's path if there are two.
    fn put(&self, code: usize, operands: Words, other: &mut Place, words: &mut Words) -> Result<usize, Refusal> {
        let Handle { store, root, ref at } = self.node.0;
        let paths = (&mut at.path.to_place(), other);
        store.places.query(code, root, paths, at.path.len(), operands, words)
    }

    fn ask(&self, code: usize, operand: usize, words: &mut Words) -> usize {
        let (start, end) = self.ends();
        self.put(code, [start, end, operand, 0, 0, 0, 0, 0], &mut [0; 64], words).expect(WITHIN)
    }
}

impl PartialEq for SyntaxText<'_> {
    fn eq(&self, other: &SyntaxText<'_>) -> bool {
        let Handle { store, root, ref at } = other.node.0;
        if self.node.0.store.id != store.id {
            // No call takes two stores.
            return self.len() == other.len()
                && self.chunks().flat_map(str::bytes).eq(other.chunks().flat_map(str::bytes));
        }
        let ((start, end), (other_start, other_end)) = (self.ends(), other.ends());
        let operands = [start, end, root as usize, at.path.len(), other_start, other_end, 0, 0];
        self.put(ffi::EQUAL_TEXT, operands, &mut at.path.to_place(), &mut Words::default()).expect(WITHIN) == ffi::YES
    }
}

impl Eq for SyntaxText<'_> {}

impl PartialEq<str> for SyntaxText<'_> {
    fn eq(&self, other: &str) -> bool {
        self.len() as usize == other.len() && self.chunks().flat_map(str::bytes).eq(other.bytes())
    }
}

impl PartialEq<&str> for SyntaxText<'_> {
    fn eq(&self, other: &&str) -> bool {
        self == *other
    }
}

impl PartialEq<SyntaxText<'_>> for str {
    fn eq(&self, other: &SyntaxText<'_>) -> bool {
        other == self
    }
}

impl PartialEq<SyntaxText<'_>> for &str {
    fn eq(&self, other: &SyntaxText<'_>) -> bool {
        other == *self
    }
}

impl fmt::Display for SyntaxText<'_> {
    fn fmt(&self, f: &mut fmt::Formatter<'_>) -> fmt::Result {
        self.try_for_each_chunk(|chunk| f.write_str(chunk))
    }
}

impl fmt::Debug for SyntaxText<'_> {
    fn fmt(&self, f: &mut fmt::Formatter<'_>) -> fmt::Result {
        fmt::Debug::fmt(&self.to_string(), f)
    }
}

impl From<SyntaxText<'_>> for String {
    fn from(text: SyntaxText<'_>) -> String {
        text.to_string()
    }
}
