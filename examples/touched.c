/* The tiles of a tree of three tiles that the window from 12 to 21 touches. */
#include <stdio.h>
#include "tussockbell.h"

int main(void)
{
    static const uint8_t tree[80] = {
        2, 0, 0, 0, 3, 0, 0, 0,
        1, 0, 0, 0, 0, 0, 0, 0, 0, 0, 0, 0, 24, 0, 0, 0,
        2, 0, 0, 0, 0, 0, 0, 0, 0, 0, 0, 0, 14, 0, 0, 0, 20, 0, 0, 0, 24, 0, 0, 0,
        3, 0, 0, 0, 0, 0, 0, 0, 0, 0, 0, 0, 4, 0, 0, 0, 10, 0, 0, 0, 14, 0, 0, 0, 20, 0, 0, 0, 24, 0, 0, 0};
    static const uint8_t kinds[1] = {TUSSOCKBELL_INT32};
    static const uint8_t window[8] = {12, 0, 0, 0, 21, 0, 0, 0};
    uint32_t tiles[8];
    uint64_t answer[4];
    tussockbell_query(kinds, 1, 1, 32, 3, tree, 80, kinds, 1, window, 8, tiles, 8, answer);
    printf("found %llu looked %llu\n", (unsigned long long)answer[2], (unsigned long long)answer[3]);
    return 0;
}
