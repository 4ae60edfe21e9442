//! The foreign calls, made safe. The fields here are private and no function takes counts or a state in, so what the
//! library asks of its lent places holds by construction: they are as its own calls left them, from an empty store on.

use std::ops::{Deref, DerefMut};

use crate::{
    ffi,
    green::SyntaxKind,
    indexes::{Indexes, Lent, Place},
    refusal::Refusal,
    utility_types::{NodeOrToken, TextRange, TextSize, TokenAtOffset},
};

/// What a call answers, after its outcome.
pub(crate) type Words = [usize; 8];
/// The words of one event of a walk: Leave, node, kind, depth, last index, start, end.
pub(crate) type Event = [u64; 7];
/// Numbers that the events of a run yield.
pub(crate) type Yields = [u32; 4096];

/// An outcome that is none of the refusals, or the refusal.
#[inline]
fn judged(outcome: usize) -> Result<usize, Refusal> {
    match outcome.checked_sub(ffi::REFUSED) {
        Some(number) => Err(Refusal::of_number(number)),
        None => Ok(outcome),
    }
}

/// An element that a call has answered.
#[derive(Clone)]
pub(crate) struct Found {
    pub kind: SyntaxKind,
    pub range: TextRange,
    pub path: Indexes,
}

impl Found {
    /// Words: start, end, depth, kind.
    #[inline]
    pub fn new(words: &[usize], path: Indexes) -> Found {
        let range = TextRange::new(words[0] as TextSize, words[1] as TextSize);
        Found { kind: SyntaxKind(words[3] as u16), range, path }
    }

    /// The same, its indexes being in a place.
    ///
    /// # Safety
    ///
    /// The call that was lent the place has answered these words.
    #[inline]
    unsafe fn in_place(words: &[usize], place: &Lent) -> Found {
        // SAFETY: a call sets the indexes of the element that it answers, at most 64.
        Found::new(words, unsafe { place.first(words[2]) })
    }
}

/// An element or none.
pub(crate) type Answer = Result<Option<NodeOrToken<Found, Found>>, Refusal>;

/// Asks a question at a path. `call` is given the path's place, its depth and a place for words, and answers the outcome.
///
/// # Safety
///
/// It is a call of the library.
#[inline]
unsafe fn answer(path: &Indexes, call: impl FnOnce(*mut u32, usize, *mut usize) -> usize) -> Answer {
    let (mut place, mut words) = (Lent::new(), Words::default());
    place.set(path);
    let outcome = judged(call(place.as_mut_ptr(), path.len(), words.as_mut_ptr()))?;
    // SAFETY: the caller says that the outcome is of a call.
    Ok(match outcome {
        ffi::NODE => Some(NodeOrToken::Node(unsafe { Found::in_place(&words, &place) })),
        ffi::TOKEN => Some(NodeOrToken::Token(unsafe { Found::in_place(&words, &place) })),
        _ => None,
    })
}

/// A buffer of the store: its own, or lent to it.
pub(crate) enum Buffer<'b, T> {
    Owned(Box<[T]>),
    Lent(&'b mut [T]),
}

impl<T> Deref for Buffer<'_, T> {
    type Target = [T];

    #[inline]
    fn deref(&self) -> &[T] {
        match self {
            Buffer::Owned(buffer) => buffer,
            Buffer::Lent(buffer) => buffer,
        }
    }
}

impl<T> DerefMut for Buffer<'_, T> {
    #[inline]
    fn deref_mut(&mut self) -> &mut [T] {
        match self {
            Buffer::Owned(buffer) => buffer,
            Buffer::Lent(buffer) => buffer,
        }
    }
}

/// The store's four places. Written by the library alone.
pub(crate) struct Places<'b> {
    records: Buffer<'b, u64>,
    children: Buffer<'b, u64>,
    text: Buffer<'b, u8>,
    used: [usize; 8],
}

/// Calls a foreign function with the store's places for reading.
macro_rules! read {
    ($places:expr, $name:ident($($argument:expr),*)) => {
        ffi::$name(
            $places.records.as_ptr(),
            $places.records.len(),
            $places.children.as_ptr(),
            $places.children.len(),
            $places.text.as_ptr(),
            $places.text.len(),
            $places.used.as_ptr(),
            $($argument),*
        )
    };
}

/// Questions at a path whose answer is an element.
macro_rules! questions {
    ($($name:ident $foreign:ident)*) => {
        $(
            #[inline]
            pub fn $name(&self, root: u32, path: &Indexes) -> Answer {
                // SAFETY: the places are the store's own; path and words have the lengths that the header says.
                unsafe { answer(path, |path, depth, words| read!(self, $foreign(root as usize, path, depth, words))) }
            }
        )*
    };
}

impl<'b> Places<'b> {
    /// An empty store: nothing is in use, whatever the buffers hold.
    pub fn new(records: Buffer<'b, u64>, children: Buffer<'b, u64>, text: Buffer<'b, u8>) -> Places<'b> {
        Places { records, children, text, used: [0; 8] }
    }

    /// How many records, child places and text bytes are in use.
    pub fn in_use(&self) -> [usize; 3] {
        [self.used[0], self.used[1], self.used[2]]
    }

    /// The text of the token at a path.
    #[inline]
    pub fn token_text(&self, root: u32, path: &Indexes) -> Result<&str, Refusal> {
        let (mut place, mut words) = (Lent::new(), Words::default());
        place.set(path);
        // SAFETY: the places are the store's own; path and words have the lengths that the header says. What is not refused is
        // where a token's text lies.
        unsafe {
            let (path_at, words_at) = (place.as_mut_ptr(), words.as_mut_ptr());
            judged(read!(self, notes_token_text(root as usize, path_at, path.len(), words_at)))?;
            Ok(self.text(&words))
        }
    }

    /// The part of the store's text that a call has answered.
    ///
    /// # Safety
    ///
    /// It is of a chunk or of a token: their bytes are those of tokens, and a byte over 127 is refused.
    #[inline]
    unsafe fn text(&self, words: &Words) -> &str {
        let [from, to, ..] = *words;
        // SAFETY: bytes up to 127 are characters.
        unsafe { std::str::from_utf8_unchecked(&self.text[from..to]) }
    }

    /// The root, or the refusal and its event.
    pub fn run(&mut self, sheet: &[u8], source: &[u8], yields: &mut Yields) -> Result<u32, (Refusal, usize)> {
        let mut words = Words::default();
        // SAFETY: the places are the store's own and borrowed alone; yields and words have the lengths that the header says.
        let outcome = unsafe {
            ffi::notes_run(
                self.records.as_mut_ptr(),
                self.records.len(),
                self.children.as_mut_ptr(),
                self.children.len(),
                self.text.as_mut_ptr(),
                self.text.len(),
                self.used.as_mut_ptr(),
                yields.as_mut_ptr(),
                sheet.as_ptr(),
                sheet.len(),
                source.as_ptr(),
                source.len(),
                words.as_mut_ptr(),
            )
        };
        match judged(outcome) {
            Ok(_) => Ok(words[0] as u32),
            Err(refusal) => Err((refusal, words[0])),
        }
    }

    /// The record that an edit makes, by the edit's code.
    pub fn edit(
        &mut self,
        code: usize,
        number: u32,
        from: usize,
        to: usize,
        news: &[u32],
        path: &Place,
    ) -> Result<u32, Refusal> {
        let mut words = Words::default();
        // SAFETY: the places are the store's own and borrowed alone; path and words have the lengths that the header says.
        let outcome = unsafe {
            ffi::notes_edit(
                self.records.as_mut_ptr(),
                self.records.len(),
                self.children.as_mut_ptr(),
                self.children.len(),
                self.text.as_ptr(),
                self.text.len(),
                self.used.as_mut_ptr(),
                code,
                number as usize,
                from,
                to,
                news.as_ptr(),
                news.len(),
                path.as_ptr(),
                words.as_mut_ptr(),
            )
        };
        judged(outcome).map(|_| words[0] as u32)
    }

    /// Token or node; words: kind, length, size, height, children.
    pub fn element(&self, number: u32, words: &mut Words) -> Result<usize, Refusal> {
        // SAFETY: the places are the store's own; words has the length that the header says.
        judged(unsafe { read!(self, notes_element(number as usize, words.as_mut_ptr())) })
    }

    /// Words: the child's number, its offset in the node.
    pub fn child(&self, number: u32, index: usize, words: &mut Words) -> Result<usize, Refusal> {
        // SAFETY: the places are the store's own; words has the length that the header says.
        judged(unsafe { read!(self, notes_child(number as usize, index, words.as_mut_ptr())) })
    }

    /// Any question, by its code.
    pub fn query(
        &self,
        code: usize,
        root: u32,
        (path, other): (&mut Place, &mut Place),
        depth: usize,
        operands: Words,
        words: &mut Words,
    ) -> Result<usize, Refusal> {
        // SAFETY: the places are the store's own; the paths, operands and words have the lengths that the header says.
        judged(unsafe {
            read!(
                self,
                notes_query(
                    root as usize,
                    path.as_mut_ptr(),
                    other.as_mut_ptr(),
                    depth,
                    code,
                    operands.as_ptr(),
                    words.as_mut_ptr()
                )
            )
        })
    }

    questions! {
        first_child notes_first_child
        last_child notes_last_child
        first_child_or_token notes_first_child_or_token
        last_child_or_token notes_last_child_or_token
        next_sibling notes_next_sibling
        prev_sibling notes_prev_sibling
        next_sibling_or_token notes_next_sibling_or_token
        prev_sibling_or_token notes_prev_sibling_or_token
        first_token notes_first_token
        last_token notes_last_token
        next_token notes_next_token
        prev_token notes_prev_token
    }

    /// The parent, or none at a root.
    #[inline]
    pub fn parent(&self, root: u32, path: &Indexes) -> Answer {
        // SAFETY: the places are the store's own; path and words have the lengths that the header says.
        unsafe { answer(path, |path, depth, words| read!(self, notes_parent(root as usize, path, depth, words))) }
    }

    /// The element itself.
    pub fn here(&self, root: u32, path: &Indexes) -> Answer {
        let (mut other, operands) = ([0; 64], Words::default());
        let (other, operands, code) = (other.as_mut_ptr(), operands.as_ptr(), ffi::HERE);
        // SAFETY: the places are the store's own; the paths, operands and words have the lengths that the header says.
        unsafe {
            answer(path, |path, depth, words| {
                read!(self, notes_query(root as usize, path, other, depth, code, operands, words))
            })
        }
    }

    pub fn child_or_token_at_range(&self, root: u32, path: &Indexes, range: TextRange) -> Answer {
        let (start, end) = (range.start() as usize, range.end() as usize);
        // SAFETY: the places are the store's own; path and words have the lengths that the header says.
        unsafe {
            answer(path, |path, depth, words| {
                read!(self, notes_child_or_token_at_range(root as usize, path, depth, start, end, words))
            })
        }
    }

    pub fn covering_element(&self, root: u32, path: &Indexes, range: TextRange) -> Answer {
        let (start, end) = (range.start() as usize, range.end() as usize);
        // SAFETY: the places are the store's own; path and words have the lengths that the header says.
        unsafe {
            answer(path, |path, depth, words| {
                read!(self, notes_covering_element(root as usize, path, depth, start, end, words))
            })
        }
    }

    pub fn token_at_offset(
        &self,
        root: u32,
        path: &Indexes,
        offset: TextSize,
    ) -> Result<TokenAtOffset<Found>, Refusal> {
        let (mut left, mut right, mut words) = (Lent::new(), Lent::new(), Words::default());
        left.set(path);
        right.set(path);
        // SAFETY: the places are the store's own; the paths and words have the lengths that the header says. The words are then
        // those of a call that was lent these paths.
        unsafe {
            let (one, other, words_at) = (left.as_mut_ptr(), right.as_mut_ptr(), words.as_mut_ptr());
            let depth = path.len();
            let outcome =
                read!(self, notes_token_at_offset(root as usize, one, other, depth, offset as usize, words_at));
            let [first, second] = [&words[..4], &words[4..]];
            Ok(match judged(outcome)? {
                ffi::NONE => TokenAtOffset::None,
                ffi::PAIR => TokenAtOffset::Between(Found::in_place(first, &left), Found::in_place(second, &right)),
                _ => TokenAtOffset::Single(Found::in_place(first, &left)),
            })
        }
    }
}

/// The children of a node, one after the other: the last answer's place and words, in which the next question is put.
#[derive(Clone)]
pub(crate) struct Children<'s> {
    places: &'s Places<'s>,
    root: u32,
    with_tokens: bool,
    place: Place,
    words: Words,
    outcome: usize,
}

impl<'s> Children<'s> {
    pub fn new(places: &'s Places<'s>, root: u32, path: &Indexes, with_tokens: bool) -> Children<'s> {
        let (mut place, mut words) = (path.to_place(), Words::default());
        let (root_number, path_at, depth, words_at) =
            (root as usize, place.as_mut_ptr(), path.len(), words.as_mut_ptr());
        // SAFETY: the places are the store's own; path and words have the lengths that the header says.
        let outcome = unsafe {
            match with_tokens {
                true => read!(places, notes_first_child_or_token(root_number, path_at, depth, words_at)),
                false => read!(places, notes_first_child(root_number, path_at, depth, words_at)),
            }
        };
        let outcome = judged(outcome).expect("a handle names a node of its store");
        Children { places, root, with_tokens, place, words, outcome }
    }

    /// Goes to the next sibling.
    #[inline]
    fn advance(&mut self) {
        let (root, path, depth, words) =
            (self.root as usize, self.place.as_mut_ptr(), self.words[2], self.words.as_mut_ptr());
        // SAFETY: the places are the store's own; path and words have the lengths that the header says.
        let outcome = unsafe {
            match self.with_tokens {
                true => read!(self.places, notes_next_sibling_or_token(root, path, depth, words)),
                false => read!(self.places, notes_next_sibling(root, path, depth, words)),
            }
        };
        self.outcome = judged(outcome).expect("an answer names an element of its store");
    }
}

impl Iterator for Children<'_> {
    type Item = NodeOrToken<Found, Found>;

    #[inline]
    fn next(&mut self) -> Option<NodeOrToken<Found, Found>> {
        let is_node = match self.outcome {
            ffi::NODE => true,
            ffi::TOKEN => false,
            _ => return None,
        };
        let found = Found::new(&self.words, Indexes::new(&self.place[..self.words[2]]));
        self.advance();
        Some(if is_node { NodeOrToken::Node(found) } else { NodeOrToken::Token(found) })
    }
}

/// A walk's state and path, between two calls.
#[derive(Clone)]
pub(crate) struct Walk {
    state: [usize; 8],
    path: Place,
}

impl Walk {
    /// A walk of the node at `path`.
    pub fn new(places: &Places, root: u32, with_tokens: bool, path: &Indexes) -> Result<Walk, Refusal> {
        let mut walk = Walk { state: [0; 8], path: path.to_place() };
        // SAFETY: the places are the store's own; path and state have the lengths that the header says.
        let outcome = unsafe {
            read!(
                places,
                notes_walk_begin(
                    root as usize,
                    usize::from(with_tokens),
                    walk.path.as_ptr(),
                    path.len(),
                    walk.state.as_mut_ptr()
                )
            )
        };
        judged(outcome).map(|_| walk)
    }

    /// How many events there were, at most as many as there is place for; fewer only at the walk's end.
    pub fn next_many(&mut self, places: &Places, events: &mut [Event]) -> Result<usize, Refusal> {
        let flat = events.as_flattened_mut();
        let mut words = Words::default();
        // SAFETY: the places are the store's own; the state, path and words have the lengths that the header says.
        let outcome = unsafe {
            read!(
                places,
                notes_walk_many(
                    self.state.as_mut_ptr(),
                    self.path.as_mut_ptr(),
                    flat.as_mut_ptr(),
                    flat.len(),
                    words.as_mut_ptr()
                )
            )
        };
        judged(outcome).map(|_| words[0])
    }

    /// A coming Enter becomes Leave of that element's parent.
    pub fn skip_subtree(&mut self) -> Result<(), Refusal> {
        // SAFETY: the state has the length that the header says.
        judged(unsafe { ffi::notes_walk_skip(self.state.as_mut_ptr()) }).map(|_| ())
    }
}

/// The chunks of one text, one after the other.
pub(crate) struct Chunks<'s> {
    places: &'s Places<'s>,
    root: u32,
    path: Place,
    depth: usize,
    range: TextRange,
    state: [usize; 2],
    place: Place,
}

impl<'s> Chunks<'s> {
    /// Of the text at a range, in the node at a path.
    pub fn new(places: &'s Places<'s>, root: u32, path: &Indexes, range: TextRange) -> Chunks<'s> {
        Chunks { places, root, path: path.to_place(), depth: path.len(), range, state: [0; 2], place: [0; 64] }
    }
}

impl<'s> Iterator for Chunks<'s> {
    type Item = &'s str;

    #[inline]
    fn next(&mut self) -> Option<&'s str> {
        let mut words = Words::default();
        // SAFETY: the places are the store's own; state and place are those of this text, and all have the lengths that the
        // header says. What is not refused and not the end is a chunk.
        unsafe {
            let outcome = read!(
                self.places,
                notes_next_chunk(
                    self.root as usize,
                    self.path.as_ptr(),
                    self.depth,
                    self.range.start() as usize,
                    self.range.end() as usize,
                    self.state.as_mut_ptr(),
                    self.place.as_mut_ptr(),
                    words.as_mut_ptr()
                )
            );
            match judged(outcome).expect("a text lies within its node") {
                ffi::CHUNK => Some(self.places.text(&words)),
                _ => None,
            }
        }
    }
}
