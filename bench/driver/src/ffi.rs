//! The calls of bindings/c/notes_tree.h, as they are exported.

pub type Path = [u32; 64];
pub type Words = [usize; 8];

pub const NONE: usize = 0;
pub const TOKEN: usize = 1;
pub const NODE: usize = 2;
pub const PAIR: usize = 3;
pub const NUMBER: usize = 5;
pub const YES: usize = 6;
pub const DONE: usize = 8;
pub const PATH: usize = 9;
pub const ENTER: usize = 10;
pub const CHUNK: usize = 12;

pub const REPLACE_CHILD: usize = 0;
pub const REPLACE_WITH: usize = 4;

pub const HERE: usize = 0;
pub const WHERE_IS: usize = 18;
pub const FIND_CHAR: usize = 23;
pub const EQUAL_TEXT: usize = 25;

/// Calls that read the store, with what each takes beside it.
macro_rules! reading {
    ($($name:ident($($arg:ident: $type:ty),*);)*) => {
        extern "C" {
            $(pub fn $name(
                records: *const u64, records_len: usize, children: *const u64, children_len: usize,
                text: *const u8, text_len: usize, used: &[usize; 8], $($arg: $type),*
            ) -> usize;)*
        }
    };
}

/// Single questions that move a lent path.
macro_rules! moving {
    ($($name:ident)*) => {
        reading! { $($name(root: usize, path: &mut Path, depth: usize, words: &mut Words);)* }
    };
}

moving! {
    notes_first_child notes_last_child notes_first_child_or_token notes_last_child_or_token
    notes_next_sibling notes_prev_sibling notes_next_sibling_or_token notes_prev_sibling_or_token
    notes_first_token notes_last_token notes_next_token notes_prev_token
}

reading! {
    notes_parent(root: usize, path: &Path, depth: usize, words: &mut Words);
    notes_token_at_offset(root: usize, left: &mut Path, right: &mut Path, depth: usize, offset: usize, words: &mut Words);
    notes_child_or_token_at_range(root: usize, path: &mut Path, depth: usize, start: usize, end: usize, words: &mut Words);
    notes_covering_element(root: usize, path: &mut Path, depth: usize, start: usize, end: usize, words: &mut Words);
    notes_query(root: usize, path: &mut Path, other: &mut Path, depth: usize, code: usize, operands: &Words, words: &mut Words);
    notes_element(number: usize, words: &mut Words);
    notes_child(number: usize, index: usize, words: &mut Words);
    notes_walk_begin(root: usize, with_tokens: usize, path: &Path, depth: usize, walk: &mut Words);
    notes_walk_next(walk: &mut Words, path: &mut Path, words: &mut Words);
    notes_walk_many(walk: &mut Words, path: &mut Path, events: *mut u64, events_len: usize, words: &mut Words);
    notes_next_chunk(root: usize, path: &Path, depth: usize, start: usize, end: usize, state: &mut [usize; 2],
        place: &mut Path, words: &mut Words);
}

extern "C" {
    pub fn notes_run(
        records: *mut u64,
        records_len: usize,
        children: *mut u64,
        children_len: usize,
        text: *mut u8,
        text_len: usize,
        used: &mut [usize; 8],
        yields: &mut [u32; 4096],
        sheet: *const u8,
        sheet_len: usize,
        source: *const u8,
        source_len: usize,
        words: &mut Words,
    ) -> usize;
    pub fn notes_edit(
        records: *mut u64,
        records_len: usize,
        children: *mut u64,
        children_len: usize,
        text: *const u8,
        text_len: usize,
        used: &mut [usize; 8],
        code: usize,
        number: usize,
        from: usize,
        to: usize,
        news: *const u32,
        news_len: usize,
        path: &Path,
        words: &mut Words,
    ) -> usize;
}
