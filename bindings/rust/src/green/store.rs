//! The store: records of elements, their children and their text.

use std::{
    fmt,
    sync::atomic::{AtomicU64, Ordering},
};

use crate::{
    calls::{Buffer, Places, Words},
    ffi,
    green::{GreenElement, GreenNode, GreenToken},
    refusal::Refusal,
    utility_types::{NodeOrToken, TextSize},
    SyntaxKind,
};

/// The most that a store uses: records, child places, text bytes.
const MOST: [usize; 3] = [8_192, 16_384, 65_536];
/// Words of a record.
const RECORD: usize = 8;

/// The trees of any number of runs and edits, each element kept once where rowan's node cache would keep it once.
///
/// Elements are never changed or dropped: an edit makes new records beside the old ones. Handles
/// ([`SyntaxNode`](crate::SyntaxNode) and its like) borrow the store for reading; calls that write it want it alone, so a
/// walk cannot be under way while an edit is made:
///
/// ```compile_fail,E0502
/// # use notes_tree::{GreenNode, Store, SyntaxNode};
/// fn edit_during_walk(store: &mut Store, root: GreenNode) {
///     for event in SyntaxNode::new_root(store, root).unwrap().preorder() {
///         root.remove_child(store, 0).unwrap();
///     }
/// }
/// ```
pub struct Store<'b> {
    pub(crate) places: Places<'b>,
    /// Which store it is: numbers mean nothing in another one.
    pub(crate) id: u64,
}

/// What the store keeps of an element.
#[derive(Debug, Clone, Copy, PartialEq, Eq)]
#[non_exhaustive]
pub struct Record {
    /// Its kind.
    pub kind: SyntaxKind,
    /// The length of its text.
    pub text_len: TextSize,
    /// How many elements it has, itself and repeats counted.
    pub size: usize,
    /// 0 for a token, 1 for a node without children, else one more than that of its highest child.
    pub height: usize,
    /// How many children it has.
    pub children: usize,
}

impl Store<'static> {
    /// An empty store with all the room that a store can use: 8,192 records, 16,384 child places and 65,536 bytes of text.
    pub fn new() -> Store<'static> {
        Store::with_capacity(MOST[0], MOST[1], MOST[2])
    }

    /// An empty store with room for so many records, child places and text bytes, as far as a store can use them.
    pub fn with_capacity(records: usize, children: usize, text: usize) -> Store<'static> {
        let words = vec![0; records.min(MOST[0]) * RECORD];
        let children = vec![0; children.min(MOST[1])];
        let text = vec![0; text.min(MOST[2])];
        Store::over(Buffer::Owned(words.into()), Buffer::Owned(children.into()), Buffer::Owned(text.into()))
    }
}

impl Default for Store<'static> {
    fn default() -> Store<'static> {
        Store::new()
    }
}

impl<'b> Store<'b> {
    /// An empty store over buffers of any length and content: eight words a record, one a child place, and text bytes.
    ///
    /// ```
    /// use notes_tree::{GreenNodeBuilder, Refusal, Store, SyntaxKind};
    ///
    /// let (mut records, mut children, mut text) = ([0; 8 * 2], [0; 1], [0; 4]);
    /// let mut store = Store::with_buffers(&mut records, &mut children, &mut text);
    /// let mut builder = GreenNodeBuilder::new();
    /// builder.start_node(SyntaxKind(1));
    /// builder.token(SyntaxKind(2), "FS 12");
    /// builder.finish_node();
    /// // Five bytes of text do not fit into four.
    /// assert_eq!(builder.finish(&mut store).unwrap_err().refusal(), Some(Refusal::Full));
    /// ```
    pub fn with_buffers(records: &'b mut [u64], children: &'b mut [u64], text: &'b mut [u8]) -> Store<'b> {
        Store::over(Buffer::Lent(records), Buffer::Lent(children), Buffer::Lent(text))
    }

    fn over(records: Buffer<'b, u64>, children: Buffer<'b, u64>, text: Buffer<'b, u8>) -> Store<'b> {
        static STORES: AtomicU64 = AtomicU64::new(0);
        let id = STORES.fetch_add(1, Ordering::Relaxed);
        Store { places: Places::new(records, children, text), id }
    }

    /// How many records are in use; their numbers are those below it.
    pub fn records(&self) -> usize {
        self.places.in_use()[0]
    }

    /// How many child places are in use.
    pub fn child_places(&self) -> usize {
        self.places.in_use()[1]
    }

    /// How many bytes of text are in use.
    pub fn text_bytes(&self) -> usize {
        self.places.in_use()[2]
    }

    /// The element that a number names. [`Refusal::NoSuchElement`] if it names none.
    pub fn element(&self, number: u32) -> Result<GreenElement, Refusal> {
        let outcome = self.places.element(number, &mut Words::default())?;
        Ok(self.named(number, outcome == ffi::NODE))
    }

    /// What is kept of an element. [`Refusal::NoSuchElement`] if it is of another store.
    pub fn record(&self, element: impl Into<GreenElement>) -> Result<Record, Refusal> {
        let mut words = Words::default();
        self.places.element(self.own(element.into())?, &mut words)?;
        let [kind, text_len, size, height, children, ..] = words;
        Ok(Record { kind: SyntaxKind(kind as u16), text_len: text_len as TextSize, size, height, children })
    }

    /// The element of a number that is known to name one.
    pub(crate) fn named(&self, number: u32, is_node: bool) -> GreenElement {
        match is_node {
            true => NodeOrToken::Node(GreenNode::named(self, number)),
            false => NodeOrToken::Token(GreenToken::named(self, number)),
        }
    }

    /// The number of an element of this store.
    pub(crate) fn own(&self, element: GreenElement) -> Result<u32, Refusal> {
        let (store, number) = match element {
            NodeOrToken::Node(node) => (node.store, node.number),
            NodeOrToken::Token(token) => (token.store, token.number),
        };
        if store == self.id {
            Ok(number)
        } else {
            Err(Refusal::NoSuchElement)
        }
    }
}

impl fmt::Debug for Store<'_> {
    fn fmt(&self, f: &mut fmt::Formatter<'_>) -> fmt::Result {
        f.debug_struct("Store")
            .field("records", &self.records())
            .field("child_places", &self.child_places())
            .field("text_bytes", &self.text_bytes())
            .finish()
    }
}
