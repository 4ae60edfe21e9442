/* The notes tree for C: rowan's builder, green tree, cursor and text, proved. MIT or Apache-2.0.
 *
 * Link with libnotes_tree_ffi.a and libcursor_ffi.a (`bindings/build` makes both).
 *
 * THE STORE is four lent places: `records` (8 words a record), `children` (one word a child place), `text` (bytes) and `used`, eight counts.
 * All zeros is the empty store; what is lent may be of any length (a store uses at most 8,192 records, 16,384 child places and 65,536
 * bytes of it), and must be NULL for no length only. No call reads or writes anything else, none allocates, and none keeps
 * an address. The caller never writes to these places: what the calls below leave there is all that they ask of it.
 *
 * PLACES MUST NOT OVERLAP: one that a call may write (a pointer that is not to const) has no byte in common with any other place that the same
 * call takes, be it the store's or not: `path` and `other`, `left` and `right`, `operands` and `words`, `walk` and `words` are places of their own.
 *
 * A PATH is the number of a root that is a node, `depth` child indexes and a place of 64 of them; what lies past `depth` is not read.
 *
 * EVERY CALL RETURNS AN OUTCOME, a number below, and writes what it answers into `words`, a place of eight. Words that an answer does not have are
 * left as they were. A refused call (outcome over 100) changes no byte of the store, a path, a lent state, or `words`; but a refused sheet keeps the
 * events before the refused one, and names that one in words[0]. Any argument is taken: what does not fit is refused, by the first number that applies.
 *
 * Every contract below is proved (crates/cursor_ffi, crates/notes_tree_ffi): docs/INTERFACE.md says where each stands.
 */
#ifndef NOTES_TREE_H
#define NOTES_TREE_H

#include <stddef.h>
#include <stdint.h>

#ifdef __cplusplus
extern "C" {
#endif

/* Outcomes. A refusal is NOTES_REFUSED + document 01's number (docs/SHEETS.md has a sentence for each). */
enum {
    NOTES_NONE = 0,    /* there is none; a walk or the chunks are over */
    NOTES_TOKEN = 1,   /* words: start, end, depth, kind */
    NOTES_NODE = 2,    /* the same */
    NOTES_PAIR = 3,    /* two tokens: the left one's four words, then the right one's */
    NOTES_TEXT = 4,    /* words: start, end, counted from where the root starts */
    NOTES_NUMBER = 5,  /* words: the number */
    NOTES_YES = 6,
    NOTES_NO = 7,
    NOTES_DONE = 8,
    NOTES_PATH = 9,    /* words: depth; the indexes are in the lent path */
    NOTES_ENTER = 10,  /* words: start, end, depth, kind, 1 for a node and 0 for a token */
    NOTES_LEAVE = 11,  /* the same */
    NOTES_CHUNK = 12,  /* words: from, to: the bytes text[from] to text[to - 1] of the store */
    NOTES_FULL = 13,   /* words: how many events were written; there is no place for another one. NOTES_NONE of many events has that word, too */
    NOTES_UNKNOWN = 99, /* no edit or question has that code; nothing is read or written */
    NOTES_REFUSED = 100
};

#define NOTES_STORE const uint64_t *records, size_t records_len, const uint64_t *children, size_t children_len, \
                    const uint8_t *text, size_t text_len, const size_t used[8]
#define NOTES_STORE_MUT uint64_t *records, size_t records_len, uint64_t *children, size_t children_len, \
                        uint8_t *text, size_t text_len, size_t used[8]
#define NOTES_STORE_EDIT uint64_t *records, size_t records_len, uint64_t *children, size_t children_len, \
                         const uint8_t *text, size_t text_len, size_t used[8]

/* ---- Calls that write the store (crate notes_tree_ffi): each is one of demand 3's history. */

/* The run of a sheet (docs/SHEETS.md) over its text, with a builder of its own. NOTES_NUMBER: the root. Refused: words[0] is the event's ordinal, and
 * the events before it stay. yields[i] is the number that accepted event i yields, UINT32_MAX if it yields none; no other word of it is written. */
size_t notes_run(NOTES_STORE_MUT, uint32_t yields[4096], const uint8_t *sheet, size_t sheet_len,
                 const uint8_t *source, size_t source_len, size_t words[8]);

/* One edit, by its code. NOTES_NUMBER: the new record (NOTES_REPLACE_WITH: the new root). Numbers that an edit does not use are not looked at.
 *   NOTES_REPLACE_CHILD    node `number`, child `from`, new element `to`      4, 14, 15
 *   NOTES_INSERT_CHILD     the same                                          4, 5, 14, 15
 *   NOTES_REMOVE_CHILD     node `number`, child `from`                        4, 5, 14, 15
 *   NOTES_SPLICE_CHILDREN  node `number`, children `from` up to `to`, `news`  4, 5, 14, 15
 *   NOTES_REPLACE_WITH     root `number`, `from` indexes of `path`, new element `to`   4, 6, 14, 15 */
enum { NOTES_REPLACE_CHILD = 0, NOTES_INSERT_CHILD = 1, NOTES_REMOVE_CHILD = 2, NOTES_SPLICE_CHILDREN = 3, NOTES_REPLACE_WITH = 4 };
size_t notes_edit(NOTES_STORE_EDIT, size_t code, size_t number, size_t from, size_t to, const uint32_t *news, size_t news_len,
                  const uint32_t path[64], size_t words[8]);

/* ---- The store's records. */

/* What a record keeps: NOTES_TOKEN or NOTES_NODE; words: kind, length, size, height, children. Refused by 4. */
size_t notes_element(NOTES_STORE, size_t number, size_t words[8]);
/* Child `index` of a node: NOTES_NUMBER; words: its number, its offset in the node. Refused by 4, 5. */
size_t notes_child(NOTES_STORE, size_t number, size_t index, size_t words[8]);

/* ---- Any question, by its code: of the element, or of a text of the node, that `path` names. `other` is the second path of two elements or texts, or
 * takes the right one of two tokens. The answer's indexes are written to `path`. Operands that a question does not use are not looked at. */
enum {
    NOTES_HERE = 0, NOTES_PARENT = 1,
    NOTES_FIRST_CHILD = 2, NOTES_LAST_CHILD = 3, NOTES_FIRST_CHILD_OR_TOKEN = 4, NOTES_LAST_CHILD_OR_TOKEN = 5,
    NOTES_NEXT_SIBLING = 6, NOTES_PREV_SIBLING = 7, NOTES_NEXT_SIBLING_OR_TOKEN = 8, NOTES_PREV_SIBLING_OR_TOKEN = 9,
    NOTES_FIRST_TOKEN = 10, NOTES_LAST_TOKEN = 11, NOTES_NEXT_TOKEN = 12, NOTES_PREV_TOKEN = 13,
    NOTES_TOKEN_AT_OFFSET = 14,         /* offset */
    NOTES_CHILD_OR_TOKEN_AT_RANGE = 15, /* start, end */
    NOTES_COVERING_ELEMENT = 16,        /* start, end */
    NOTES_SAME_ELEMENT = 17,            /* the other root, the other depth: YES or NO */
    NOTES_WHERE_IS = 18,                /* a number: PATH or NONE */
    NOTES_NODE_TEXT = 19,               /* TEXT */
    NOTES_SLICE = 20,                   /* start, end of the text; from, to counted from its start: TEXT */
    NOTES_TEXT_LEN = 21,                /* start, end: NUMBER */
    NOTES_CONTAINS_CHAR = 22,           /* start, end, character: YES or NO */
    NOTES_FIND_CHAR = 23,               /* start, end, character: NUMBER or NONE */
    NOTES_CHAR_AT = 24,                 /* start, end, offset: NUMBER or NONE */
    NOTES_EQUAL_TEXT = 25               /* start, end, the other root, depth, start, end: YES or NO */
};
size_t notes_query(NOTES_STORE, size_t root, uint32_t path[64], uint32_t other[64], size_t depth, size_t code,
                   const size_t operands[8], size_t words[8]);

/* ---- Walks. `walk` is eight words, all zeros when new (a walk of root 0, nodes only); they, and `path`, are written by these calls alone. */

/* A walk of the node at `path`. NOTES_DONE; refused by 4. The path is the walk's from then on. */
size_t notes_walk_begin(NOTES_STORE, size_t root, size_t with_tokens, const uint32_t path[64], size_t depth, size_t walk[8]);
/* The next event: NOTES_ENTER, NOTES_LEAVE, or NOTES_NONE for ever. Its element is at the indexes that `path` held before the call. Refused by 4 where
 * they name no element, or a token in a walk of nodes only. */
size_t notes_walk_next(NOTES_STORE, size_t walk[8], uint32_t path[64], size_t words[8]);
/* A coming Enter becomes Leave of that element's parent. NOTES_DONE; refused by 16 before the first event. */
size_t notes_walk_skip(size_t walk[8]);
/* As many calls of notes_walk_next as there is place for in `events`, seven words each: 0 Enter or 1 Leave, 0 token or 1 node, kind, depth, the last
 * of its indexes, start, end. NOTES_FULL, or NOTES_NONE at the walk's end; words[0]: how many events there are. Refused by 4 as the first of those calls
 * would be, with no event written; no later one can be refused. */
size_t notes_walk_many(NOTES_STORE, size_t walk[8], uint32_t path[64], uint64_t *events, size_t events_len, size_t words[8]);

/* ---- The chunks of a text, start to end of the node at `path`. `state` and `place`, all zeros when new, are of that text. NOTES_CHUNK: what the next
 * token has of the text, where that token's record keeps it; or NOTES_NONE for ever. Refused by 4, 5. */
size_t notes_next_chunk(NOTES_STORE, size_t root, const uint32_t path[64], size_t depth, size_t start, size_t end,
                        size_t state[2], uint32_t place[64], size_t words[8]);

/* ---- Single questions (crate cursor_ffi): as by their codes, without the way through the dispatcher. Refused by 4; the last three by 5, too. */
size_t notes_parent(NOTES_STORE, size_t root, const uint32_t path[64], size_t depth, size_t words[8]);
#define NOTES_QUESTION(name) size_t notes_##name(NOTES_STORE, size_t root, uint32_t path[64], size_t depth, size_t words[8])
NOTES_QUESTION(first_child);
NOTES_QUESTION(last_child);
NOTES_QUESTION(first_child_or_token);
NOTES_QUESTION(last_child_or_token);
NOTES_QUESTION(next_sibling);
NOTES_QUESTION(prev_sibling);
NOTES_QUESTION(next_sibling_or_token);
NOTES_QUESTION(prev_sibling_or_token);
NOTES_QUESTION(first_token);
NOTES_QUESTION(last_token);
NOTES_QUESTION(next_token);
NOTES_QUESTION(prev_token);
/* Where the text of the token at `path` lies, which is where its record keeps it: NOTES_CHUNK, of nothing where the token is empty. Refused by 4
 * where the path names no token. */
size_t notes_token_text(NOTES_STORE, size_t root, const uint32_t path[64], size_t depth, size_t words[8]);
size_t notes_token_at_offset(NOTES_STORE, size_t root, uint32_t left[64], uint32_t right[64], size_t depth, size_t offset, size_t words[8]);
size_t notes_child_or_token_at_range(NOTES_STORE, size_t root, uint32_t path[64], size_t depth, size_t start, size_t end, size_t words[8]);
size_t notes_covering_element(NOTES_STORE, size_t root, uint32_t path[64], size_t depth, size_t start, size_t end, size_t words[8]);

#ifdef __cplusplus
}
#endif

#endif
