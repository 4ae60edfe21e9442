//! The declarations of `bindings/c/notes_tree.h`, where each is described.

pub const NONE: usize = 0;
pub const TOKEN: usize = 1;
pub const NODE: usize = 2;
pub const PAIR: usize = 3;
pub const NUMBER: usize = 5;
pub const YES: usize = 6;
pub const PATH: usize = 9;
pub const CHUNK: usize = 12;
pub const REFUSED: usize = 100;

pub const REPLACE_CHILD: usize = 0;
pub const INSERT_CHILD: usize = 1;
pub const REMOVE_CHILD: usize = 2;
pub const SPLICE_CHILDREN: usize = 3;
pub const REPLACE_WITH: usize = 4;

pub const HERE: usize = 0;
pub const SAME_ELEMENT: usize = 17;
pub const WHERE_IS: usize = 18;
pub const SLICE: usize = 20;
pub const CONTAINS_CHAR: usize = 22;
pub const FIND_CHAR: usize = 23;
pub const CHAR_AT: usize = 24;
pub const EQUAL_TEXT: usize = 25;

/// Functions that read the store: its four places come first.
macro_rules! reading {
    ($(fn $name:ident($($argument:ident: $type:ty),*);)*) => {
        extern "C" {
            $(pub fn $name(
                records: *const u64,
                records_len: usize,
                children: *const u64,
                children_len: usize,
                text: *const u8,
                text_len: usize,
                used: *const usize,
                $($argument: $type),*
            ) -> usize;)*
        }
    };
}

/// Questions of one element whose answer is another one.
macro_rules! questions {
    ($($name:ident)*) => {
        reading! {
            $(fn $name(root: usize, path: *mut u32, depth: usize, words: *mut usize);)*
        }
    };
}

extern "C" {
    pub fn notes_run(
        records: *mut u64,
        records_len: usize,
        children: *mut u64,
        children_len: usize,
        text: *mut u8,
        text_len: usize,
        used: *mut usize,
        yields: *mut u32,
        sheet: *const u8,
        sheet_len: usize,
        source: *const u8,
        source_len: usize,
        words: *mut usize,
    ) -> usize;

    pub fn notes_edit(
        records: *mut u64,
        records_len: usize,
        children: *mut u64,
        children_len: usize,
        text: *const u8,
        text_len: usize,
        used: *mut usize,
        code: usize,
        number: usize,
        from: usize,
        to: usize,
        news: *const u32,
        news_len: usize,
        path: *const u32,
        words: *mut usize,
    ) -> usize;

    pub fn notes_walk_skip(walk: *mut usize) -> usize;
}

reading! {
    fn notes_element(number: usize, words: *mut usize);
    fn notes_child(number: usize, index: usize, words: *mut usize);
    fn notes_query(
        root: usize, path: *mut u32, other: *mut u32, depth: usize, code: usize, operands: *const usize, words: *mut usize
    );
    fn notes_walk_begin(root: usize, with_tokens: usize, path: *const u32, depth: usize, walk: *mut usize);
    fn notes_walk_many(walk: *mut usize, path: *mut u32, events: *mut u64, events_len: usize, words: *mut usize);
    fn notes_next_chunk(
        root: usize, path: *const u32, depth: usize, start: usize, end: usize, state: *mut usize, place: *mut u32,
        words: *mut usize
    );
    fn notes_parent(root: usize, path: *const u32, depth: usize, words: *mut usize);
    fn notes_token_text(root: usize, path: *const u32, depth: usize, words: *mut usize);
    fn notes_token_at_offset(
        root: usize, left: *mut u32, right: *mut u32, depth: usize, offset: usize, words: *mut usize
    );
    fn notes_child_or_token_at_range(
        root: usize, path: *mut u32, depth: usize, start: usize, end: usize, words: *mut usize
    );
    fn notes_covering_element(root: usize, path: *mut u32, depth: usize, start: usize, end: usize, words: *mut usize);
}

questions! {
    notes_first_child
    notes_last_child
    notes_first_child_or_token
    notes_last_child_or_token
    notes_next_sibling
    notes_prev_sibling
    notes_next_sibling_or_token
    notes_prev_sibling_or_token
    notes_first_token
    notes_last_token
    notes_next_token
    notes_prev_token
}
