/* Calls the functions that the example has no call of: a tree in parts, the writer, mins, maxes, sums and null counts, and
 * the report, and the version. Every number of every answer and every byte of every buffer is held against what the rules say of it, and
 * the first difference ends the program with status 1. */
#include "tussockbell.h"

#include <inttypes.h>
#include <stdio.h>
#include <stdlib.h>
#include <string.h>

enum { LENGTH = 80, INNER = 24, LEAVES = 24, FILE_SIZE = 1166 };

static const uint8_t kinds[1] = {TUSSOCKBELL_INT32};
static int calls;

static size_t put(uint8_t *bytes, size_t at, uint64_t number, size_t width)
{
    for (size_t i = 0; i < width; i++) {
        bytes[at + i] = (uint8_t)(number >> (8 * i));
    }
    return at + width;
}

/* As many numbers of 8 bytes, little-endian. */
static size_t numbers(uint8_t *bytes, size_t count, const uint64_t *all)
{
    size_t at = 0;
    for (size_t i = 0; i < count; i++) {
        at = put(bytes, at, all[i], 8);
    }
    return at;
}

static void same_bytes(const char *what, const uint8_t *said, const uint8_t *right, size_t length)
{
    calls++;
    for (size_t i = 0; i < length; i++) {
        if (said[i] != right[i]) {
            fprintf(stderr, "%s: byte %zu is %u, not %u\n", what, i, said[i], right[i]);
            exit(1);
        }
    }
}

static void same(const char *what, size_t count, const uint64_t *said, const uint64_t *right)
{
    calls++;
    for (size_t i = 0; i < count; i++) {
        if (said[i] != right[i]) {
            fprintf(stderr, "%s: place %zu is %" PRIu64 ", not %" PRIu64 "\n", what, i, said[i], right[i]);
            exit(1);
        }
    }
}

static void one(const char *what, uint64_t said, uint64_t right)
{
    same(what, 1, &said, &right);
}

#define ANSWER(what, said, ...) \
    do { \
        const uint64_t right_[] = {__VA_ARGS__}; \
        same(what, sizeof right_ / sizeof right_[0], said, right_); \
    } while (0)

static size_t file(const char *name, uint8_t *bytes, size_t room)
{
    char path[256];
    snprintf(path, sizeof path, "tests/fixtures/sample/%s", name);
    FILE *from = fopen(path, "rb");
    if (from == NULL) {
        perror(path);
        exit(1);
    }
    size_t length = fread(bytes, 1, room, from);
    fclose(from);
    return length;
}

/* The sample fragment: three tiles, the last of 5 cells, the tree A of the rules. */
static uint8_t footer[512], tree[512], offsets[512], described[512];
static size_t footer_length, tree_length, offsets_length, described_length;

/* The tree in blocks of `size` bytes, the stated length and the room for its inner boxes as given. */
static void in_parts(const uint8_t *body, size_t length, size_t size, uint64_t stated, size_t room, uint64_t *answer)
{
    uint64_t state[TUSSOCKBELL_PARTS_PLACES];
    uint8_t work[2 * INNER], right[2 * INNER];
    memset(work, 0xa5, sizeof work);
    memset(right, 0xa5, sizeof right);
    tussockbell_parts_start(kinds, 1, 1, 32, FILE_SIZE, footer, footer_length, stated, state);
    for (size_t at = 0; at < length; at += size) {
        tussockbell_parts_block(state, work, room, body + at, length - at < size ? length - at : size);
    }
    tussockbell_parts_finish(state, work, room, answer);
    if (answer[TUSSOCKBELL_NUMBER] == TUSSOCKBELL_NOT_REFUSED) {
        memcpy(right, tree + 16, 8);
        memcpy(right + 8, tree + 32, 16);
    }
    same_bytes("the work buffer", work + room, right + room, sizeof work - room);
    if (answer[TUSSOCKBELL_NUMBER] == TUSSOCKBELL_NOT_REFUSED) {
        same_bytes("the inner boxes", work, right, room);
    }
}

static void parts(void)
{
    uint64_t answer[TUSSOCKBELL_OPEN_PLACES];
    for (size_t size = 1; size <= LENGTH + 1; size++) {
        in_parts(tree, LENGTH, size, LENGTH, INNER, answer);
        ANSWER("a tree in parts", answer, 0, 0, 0, 3, 2, 3);
        in_parts(tree, LENGTH, size, LENGTH, INNER - 1, answer);
        ANSWER("too short a work buffer", answer, TUSSOCKBELL_REFUSED_WORK, 0, 0, 0, 0, 0);
        in_parts(tree, LENGTH - 1, size, LENGTH, INNER, answer);
        ANSWER("a byte less than stated", answer, TUSSOCKBELL_REFUSED_BYTES, LENGTH - 1, 1, 0, 0, 0);
        in_parts(tree, LENGTH, size, LENGTH + 1, INNER, answer);
        ANSWER("a length that no tree has", answer, TUSSOCKBELL_REFUSED_BYTES, LENGTH + 1, 1, 0, 0, 0);
    }
    uint8_t longer[LENGTH + 1];
    memcpy(longer, tree, LENGTH);
    longer[LENGTH] = 0;
    in_parts(longer, LENGTH + 1, 7, LENGTH, INNER, answer);
    ANSWER("a byte more than stated", answer, TUSSOCKBELL_REFUSED_BYTES, LENGTH, 1, 0, 0, 0);
    put(longer, 72, 25, 4);
    in_parts(longer, LENGTH, 7, LENGTH, INNER, answer);
    ANSWER("a reversed leaf", answer, TUSSOCKBELL_REFUSED_REVERSED, 72, 1, 0, 0, 0);
    put(longer, 72, 20, 4);
    put(longer, 76, 25, 4);
    in_parts(longer, LENGTH, 7, LENGTH, INNER, answer);
    ANSWER("a leaf outside its parent", answer, TUSSOCKBELL_REFUSED_OUTSIDE_PARENT, 72, 1, 0, 0, 0);
    in_parts(NULL, 0, 1, LENGTH, INNER, answer);
    ANSWER("no bytes", answer, TUSSOCKBELL_REFUSED_BYTES, 0, 1, 0, 0, 0);
}

static void writer(void)
{
    uint8_t leaves[LEAVES], out[LENGTH + 9], right[LENGTH + 9];
    uint64_t answer[TUSSOCKBELL_WRITE_PLACES];
    memcpy(leaves, tree + LENGTH - LEAVES, LEAVES);
    for (size_t room = 0; room <= sizeof out; room++) {
        memset(out, 0xa5, sizeof out);
        memset(right, 0xa5, sizeof right);
        tussockbell_write_tree(kinds, 1, 1, 32, 3, 2, leaves, LEAVES, out, room, answer);
        if (room < LENGTH) {
            ANSWER("too short an output buffer", answer, TUSSOCKBELL_REFUSED_ROOM, 0, 0);
        } else {
            ANSWER("a tree written", answer, 0, 0, LENGTH);
            memcpy(right, tree, LENGTH);
        }
        same_bytes("the written tree", out, right, sizeof out);
    }
    tussockbell_tree_length(kinds, 1, 1, 32, 3, 2, answer);
    ANSWER("a tree's length", answer, 0, 0, LENGTH);
    tussockbell_tree_length(kinds, 1, 1, 32, 3, 1, answer);
    ANSWER("a fanout of 1", answer, TUSSOCKBELL_REFUSED_FANOUT, 0, 0);
    memset(out, 0xa5, sizeof out);
    memset(right, 0xa5, sizeof right);
    put(leaves, 12, 9, 4);
    tussockbell_write_tree(kinds, 1, 1, 32, 3, 2, leaves, LEAVES, out, 0, answer);
    ANSWER("a reversed leaf before the room", answer, TUSSOCKBELL_REFUSED_REVERSED, 8, 0);
    tussockbell_write_tree(kinds, 1, 1, 32, 3, 2, leaves, LEAVES - 1, out, sizeof out, answer);
    ANSWER("a byte less than the leaves have", answer, TUSSOCKBELL_REFUSED_BYTES, LEAVES - 1, 0);
    same_bytes("the buffer of a refused call", out, right, sizeof out);
}

static void fixed_values(void)
{
    uint8_t mins[64], maxes[64];
    uint64_t answer[TUSSOCKBELL_RANGES_PLACES];
    size_t length = numbers(mins, 5, (const uint64_t[]){3, 7, UINT64_MAX / 2 + 1, 0, 0});
    numbers(maxes, 5, (const uint64_t[]){3, 7, UINT64_MAX, 1, 0});
    tussockbell_values(TUSSOCKBELL_UINT64, 3, mins, length, answer);
    ANSWER("mins", answer, 0, 0, 3);
    tussockbell_values(TUSSOCKBELL_UINT64, 3, mins, length - 1, answer);
    ANSWER("mins cut short", answer, TUSSOCKBELL_REFUSED_BYTES, length - 1, 0);
    tussockbell_values(4, 3, mins, length, answer);
    ANSWER("no kind", answer, TUSSOCKBELL_REFUSED_DESCRIPTION, 0, 0);
    one("a value", tussockbell_value(TUSSOCKBELL_UINT64, 3, mins, length, 1), UINT64_MAX / 2 + 1);
    one("a value past the last", tussockbell_value(TUSSOCKBELL_UINT64, 3, mins, length, 3), 0);
    one("a value unchecked", tussockbell_value_at(TUSSOCKBELL_UINT64, 3, mins, length, 0), 7);
    tussockbell_ranges(TUSSOCKBELL_UINT64, 3, mins, length, maxes, length, answer);
    ANSWER("mins and maxes", answer, 0, 0, 0, 3);
    tussockbell_range(TUSSOCKBELL_UINT64, 3, mins, length, maxes, length, 1, answer);
    ANSWER("a range", answer, UINT64_MAX / 2 + 1, UINT64_MAX);
    tussockbell_ranges(TUSSOCKBELL_INT64, 3, maxes, length, mins, length, answer);
    ANSWER("a min above its max", answer, TUSSOCKBELL_REFUSED_REVERSED, 16, 1, 0);
    tussockbell_range(TUSSOCKBELL_INT64, 3, maxes, length, mins, length, 0, answer);
    ANSWER("a range of refused bodies", answer, 0, 0);
}

static void var_values(void)
{
    uint8_t body[64], other[64];
    uint64_t answer[TUSSOCKBELL_RANGES_PLACES];
    size_t length = numbers(body, 5, (const uint64_t[]){3, 0, 2, 2, 5});
    memcpy(body + length, "abcde", 5);
    length += 5;
    size_t other_length = numbers(other, 5, (const uint64_t[]){3, 0, 1, 0, 0});
    tussockbell_var_values(3, body, length, answer);
    ANSWER("var values", answer, 0, 0, 3);
    tussockbell_var_values(3, other, other_length, answer);
    ANSWER("a start above the buffer's size", answer, TUSSOCKBELL_REFUSED_TILE_OFFSETS, 16, 0);
    tussockbell_var_value(3, body, length, 2, answer);
    ANSWER("the last var value", answer, 42, 3);
    same_bytes("its bytes", body + answer[TUSSOCKBELL_VAR_VALUE_START], (const uint8_t *)"cde", 3);
    tussockbell_var_value(3, other, other_length, 0, answer);
    ANSWER("a var value of a refused body", answer, 0, 0);
    tussockbell_var_value_at(3, body, length, 0, answer);
    ANSWER("a var value unchecked", answer, 40, 2);
    tussockbell_var_ranges(3, body, length, body, length, answer);
    ANSWER("var mins and maxes", answer, 0, 0, 0, 3);
    tussockbell_var_ranges(3, body, length, other, other_length, answer);
    ANSWER("var maxes refused", answer, TUSSOCKBELL_REFUSED_TILE_OFFSETS, 16, 1, 0);
}

static void counts(void)
{
    uint8_t sums[64], nulls[64];
    uint64_t answer[TUSSOCKBELL_NULL_COUNTS_PLACES];
    size_t length = numbers(sums, 4, (const uint64_t[]){3, 1, UINT64_MAX, 0});
    tussockbell_sums(3, sums, length, answer);
    ANSWER("sums", answer, 0, 0, 3);
    tussockbell_sums(2, sums, length, answer);
    ANSWER("sums of other tiles", answer, TUSSOCKBELL_REFUSED_COUNT, 0, 0);
    one("a sum", tussockbell_sum(3, sums, length, 1), UINT64_MAX);
    one("a sum of a refused body", tussockbell_sum(2, sums, length, 1), 0);
    one("a sum unchecked", tussockbell_sum_at(3, sums, length, 0), 1);
    numbers(nulls, 4, (const uint64_t[]){3, 32, 0, 5});
    tussockbell_null_counts(kinds, 1, 1, 32, FILE_SIZE, footer, footer_length, nulls, length, answer);
    ANSWER("null counts", answer, 0, 0, 0, 3);
    one("a null count", tussockbell_null_count(kinds, 1, 1, 32, FILE_SIZE, footer, footer_length, nulls, length, 2), 5);
    put(nulls, 24, 6, 8);
    tussockbell_null_counts(kinds, 1, 1, 32, FILE_SIZE, footer, footer_length, nulls, length, answer);
    ANSWER("a null count above the cells", answer, TUSSOCKBELL_REFUSED_NULL_COUNT, 24, 1, 0);
    one("one of a refused body", tussockbell_null_count(kinds, 1, 1, 32, FILE_SIZE, footer, footer_length, nulls, length, 0), 0);
}

static void report(void)
{
    static const char right[] = "tiles\t3\tfound\t2\tlooked\t6\n1\t100\t150\t32\n2\t250\t50\t5\n";
    uint8_t out[sizeof right + 1], before[sizeof right + 1];
    memset(before, 0xa5, sizeof before);
    for (size_t room = sizeof right - 2; room <= sizeof out; room++) {
        memset(out, 0xa5, sizeof out);
        size_t length = tussockbell_report(described, described_length, footer, footer_length, tree, tree_length, offsets,
                                           offsets_length, out, room);
        one("the report's length", length, sizeof right - 1);
        size_t written = room < length ? 0 : length;
        same_bytes("the report", out, (const uint8_t *)right, written);
        same_bytes("the rest of its buffer", out + written, before + written, sizeof out - written);
    }
}

int main(void)
{
    footer_length = file("footer", footer, sizeof footer);
    tree_length = file("tree", tree, sizeof tree);
    offsets_length = file("offsets", offsets, sizeof offsets);
    described_length = file("description", described, sizeof described);
    one("the sample tree's bytes", tree_length, LENGTH);
    one("the version", tussockbell_version(), TUSSOCKBELL_VERSION_NUMBER);
    parts();
    writer();
    fixed_values();
    var_values();
    counts();
    report();
    printf("%d comparisons\n", calls);
    return 0;
}
