/* The notes tree from C: builds the backsight "BS 12", reads it, and corrects its point. `bindings/test` compiles and runs it.
 *
 *     cc -Ibindings/c bindings/c/example.c -Ltarget/staticlib -lnotes_tree_ffi -lcursor_ffi
 */
#include "notes_tree.h"

#include <stdio.h>
#include <string.h>

enum { BACKSIGHT = 1, KEYWORD = 2, BLANK = 3, POINT = 4 };

/* The store: room for 64 records, 64 child places and 256 bytes of text. */
static uint64_t records[64 * 8];
static uint64_t children[64];
static uint8_t text[256];
static size_t used[8];
#define STORE records, 64 * 8, children, 64, text, sizeof text, used

/* A sheet as it grows: docs/SHEETS.md has the layout. */
struct sheet {
    uint32_t words[16], operands[16];
    size_t events;
    char text[64];
    size_t length;
};

static void event(struct sheet *sheet, uint32_t code, uint32_t kind, uint32_t operand)
{
    sheet->words[sheet->events] = code << 16 | kind;
    sheet->operands[sheet->events++] = operand;
}

static void token(struct sheet *sheet, uint32_t kind, const char *bytes)
{
    size_t length = strlen(bytes);
    memcpy(sheet->text + sheet->length, bytes, length);
    sheet->length += length;
    event(sheet, 1, kind, (uint32_t)length);
}

static size_t put(uint8_t *bytes, size_t at, size_t number)
{
    for (int i = 0; i < 4; i++)
        bytes[at + i] = (uint8_t)(number >> 8 * i);
    return at + 4;
}

static size_t run(const struct sheet *sheet, uint32_t yields[4096], size_t words[8])
{
    uint8_t bytes[8 + 8 * 16];
    size_t at = put(bytes, put(bytes, 0, sheet->events), sheet->length);
    for (size_t i = 0; i < sheet->events; i++)
        at = put(bytes, at, sheet->words[i]);
    for (size_t i = 0; i < sheet->events; i++)
        at = put(bytes, at, sheet->operands[i]);
    return notes_run(STORE, yields, bytes, at, (const uint8_t *)sheet->text, sheet->length, words);
}

/* Every event of the walk with tokens. */
static void walk(size_t root)
{
    size_t state[8] = {0}, words[8];
    uint32_t path[64] = {0};
    notes_walk_begin(STORE, root, 1, path, 0, state);
    for (;;) {
        size_t outcome = notes_walk_next(STORE, state, path, words);
        if (outcome == NOTES_NONE)
            return;
        printf("%s %s of kind %zu, %zu to %zu\n", outcome == NOTES_ENTER ? "enter" : "leave", words[4] ? "node" : "token",
               words[3], words[0], words[1]);
    }
}

/* The chunks of a part of the root's text. */
static void chunks(size_t root, size_t start, size_t end)
{
    size_t state[2] = {0}, words[8];
    uint32_t path[64] = {0}, place[64] = {0};
    while (notes_next_chunk(STORE, root, path, 0, start, end, state, place, words) == NOTES_CHUNK)
        printf("chunk \"%.*s\"\n", (int)(words[1] - words[0]), (const char *)text + words[0]);
}

/* Token after token, from the first. */
static void tokens(size_t root)
{
    size_t words[8];
    uint32_t path[64] = {0};
    size_t outcome = notes_first_token(STORE, root, path, 0, words);
    while (outcome == NOTES_TOKEN) {
        size_t bytes[8];
        notes_token_text(STORE, root, path, words[2], bytes);
        printf("token of kind %zu, %zu to %zu, child %u: \"%.*s\"\n", words[3], words[0], words[1], (unsigned)path[words[2] - 1],
               (int)(bytes[1] - bytes[0]), (const char *)text + bytes[0]);
        outcome = notes_next_token(STORE, root, path, words[2], words);
    }
}

static void token_at(size_t root, size_t offset)
{
    size_t words[8];
    uint32_t left[64] = {0}, right[64] = {0};
    size_t outcome = notes_token_at_offset(STORE, root, left, right, 0, offset, words);
    if (outcome > NOTES_REFUSED)
        printf("at %zu: refused %zu\n", offset, outcome - NOTES_REFUSED);
    else if (outcome == NOTES_PAIR)
        printf("at %zu: %zu to %zu and %zu to %zu\n", offset, words[0], words[1], words[4], words[5]);
    else if (outcome == NOTES_TOKEN)
        printf("at %zu: %zu to %zu\n", offset, words[0], words[1]);
}

int main(void)
{
    static uint32_t yields[4096];
    size_t words[8];
    uint32_t path[64] = {2};

    struct sheet backsight = {0};
    event(&backsight, 2, BACKSIGHT, 0);
    token(&backsight, KEYWORD, "BS");
    token(&backsight, BLANK, " ");
    token(&backsight, POINT, "12");
    event(&backsight, 3, 0, 0);
    if (run(&backsight, yields, words) != NOTES_NUMBER)
        return 1;
    size_t root = words[0];
    printf("root %zu of %zu records\n", root, used[0]);
    walk(root);
    token_at(root, 2);
    token_at(root, 5);
    token_at(root, 6);
    chunks(root, 1, 3);

    /* A token alone is no tree: the run is refused at its end, and the token stays. */
    struct sheet point = {0};
    token(&point, POINT, "CP4");
    size_t outcome = run(&point, yields, words);
    printf("refused %zu event %zu, token %u\n", outcome - NOTES_REFUSED, words[0], (unsigned)yields[0]);

    /* The third child of the root is replaced. */
    outcome = notes_edit(STORE, NOTES_REPLACE_WITH, root, 1, yields[0], NULL, 0, path, words);
    if (outcome != NOTES_NUMBER)
        return 1;
    printf("new root %zu of %zu records\n", words[0], used[0]);
    tokens(words[0]);
    chunks(words[0], 0, 6);
    chunks(root, 0, 5);
    return 0;
}
