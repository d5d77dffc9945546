/* Every finite float32 pattern through the compiled converter, against the C compiler's own cast, bit by bit: the 65,536
 * patterns with one upper half at a time, as the leaves of a tree. NaNs and infinities pass no check of opening, so none
 * of them is ever written. */
#include "tussockbell.h"

#include <stdio.h>
#include <stdlib.h>
#include <string.h>

enum { LEAVES = 65536, FANOUT = 1024, LEVELS = 3, ROOM = 2 * (8 + 8 * LEVELS + 8 * (1 + 64 + LEAVES)) };

static uint8_t tree[ROOM];
static uint8_t out[ROOM];

static uint8_t *put(uint8_t *at, uint64_t x, int bytes)
{
    for (int i = 0; i < bytes; i++)
        at[i] = (uint8_t)(x >> 8 * i);
    return at + bytes;
}

static uint64_t number(const uint8_t *at)
{
    uint64_t x = 0;
    for (int i = 7; i >= 0; i--)
        x = x << 8 | at[i];
    return x;
}

/* Leaf k of an upper half; the values rise with k. */
static uint32_t pattern(uint32_t upper, uint32_t k)
{
    return upper << 16 | (upper < 0x8000 ? k : 0xffff - k);
}

static uint64_t cast(uint32_t narrow)
{
    float value;
    double wide;
    uint64_t bits;
    memcpy(&value, &narrow, sizeof value);
    wide = (double)value;
    memcpy(&bits, &wide, sizeof bits);
    return bits;
}

static size_t put_tree(uint32_t upper)
{
    static const uint32_t counts[LEVELS] = {1, 64, LEAVES};
    uint8_t *at = put(put(tree, FANOUT, 4), LEVELS, 4);
    for (int l = 0; l < LEVELS; l++) {
        uint32_t below = LEAVES / counts[l];
        at = put(at, counts[l], 8);
        for (uint32_t k = 0; k < counts[l]; k++)
            at = put(put(at, pattern(upper, k * below), 4), pattern(upper, (k + 1) * below - 1), 4);
    }
    return (size_t)(at - tree);
}

static size_t put_footer(uint32_t upper, uint8_t *footer)
{
    uint8_t *at = put(put(put(put(footer, 21, 4), 1, 8), 'a', 1), 0, 2);
    at = put(put(at, pattern(upper, 0), 4), pattern(upper, LEAVES - 1), 4);
    at = put(put(put(at, LEAVES, 8), 1, 8), 0, 2);
    for (int i = 0; i < 14; i++)
        at = put(at, 0, 8);
    at = put(at, (uint64_t)(at - footer), 8);
    return (size_t)(at - footer);
}

/* How many patterns were seen; ends the program at the first that differs. */
static uint64_t look(uint32_t upper)
{
    static const uint8_t kinds[1] = {2};
    uint8_t footer[256];
    uint64_t answer[4];
    size_t footer_length = put_footer(upper, footer);
    tussockbell_convert(kinds, 1, 1, 1, 1 << 20, footer, footer_length, tree, put_tree(upper), out, sizeof out, answer);
    if (answer[0] != 0) {
        printf("%04x: refused with %d\n", (unsigned)upper, (int)answer[0]);
        exit(1);
    }
    const uint8_t *leaf = out + answer[3] - 16 * LEAVES;
    for (uint32_t k = 0; k < LEAVES; k++, leaf += 16) {
        uint64_t wanted = cast(pattern(upper, k));
        if (number(leaf) != wanted || number(leaf + 8) != wanted) {
            printf("%08x differs\n", (unsigned)pattern(upper, k));
            exit(1);
        }
    }
    return LEAVES;
}

int main(void)
{
    uint64_t seen = 0;
    for (uint32_t upper = 0; upper < 0x10000; upper++)
        if ((upper & 0x7f80) != 0x7f80)
            seen += look(upper);
    printf("soak: %llu float32 patterns are widened as the C compiler widens them\n", (unsigned long long)seen);
    return 0;
}
