/* Tussockbell for C and C++: the footer and the R-tree of a TileDB fragment's metadata, tile offsets, var offsets and
 * tile sizes, mins, maxes, sums and null counts; R-trees written from their leaves; footers and R-trees of float32
 * dimensions converted to float64; and the grids of dense fragments.
 *
 * Every function takes any input and writes every place of its answer array; none keeps a pointer. A byte string is a
 * pointer and a length. With length 0 nothing is read or written through the pointer, which may then be null. A pointer
 * to an answer array is never null. An answer array and a result buffer do not overlap each other or any byte string
 * that is lent in the same call.
 *
 * A description is `kinds`, one kind number for each dimension; `fields`, the entries of each per-field list; and
 * `capacity`, the cells of a full tile. A number that is no kind, and a number of kinds outside the limits, is refused
 * like any other number outside the limits, with TUSSOCKBELL_REFUSED_DESCRIPTION at place 0. float32 is a kind, but no
 * dimension may have it any more: a description that is else within the limits is then refused with
 * TUSSOCKBELL_REFUSED_RETIRED at the first such dimension, from 0, directly after that check. Only
 * tussockbell_convert, tussockbell_convert_length and tussockbell_convert_footer take it as it was taken before.
 *
 * An answer's first two places are the refusal's number, 0 for none, and its place in the bytes that were lent; where
 * the refusal is about a retired kind or a side of a window or a grid, the place is its dimension, from 0, and where it
 * is about a listing, the line, from 0. After a refusal every other number is 0 unless a comment says otherwise. The
 * answers of tussockbell_schema_name, tussockbell_dense_schema_name, tussockbell_extent, tussockbell_var_extent,
 * tussockbell_extent_at, tussockbell_range, tussockbell_var_value and tussockbell_var_value_at hold no refusal, and
 * neither do the numbers that a function returns; tussockbell_footer, tussockbell_offsets, tussockbell_var_offsets,
 * tussockbell_values and the like say whether a footer, a list or a body is refused, and why. */
#ifndef TUSSOCKBELL_H
#define TUSSOCKBELL_H

#include <stddef.h>
#include <stdint.h>

#ifdef __cplusplus
extern "C" {
#endif

/* The version that this header is of. */
#define TUSSOCKBELL_VERSION "1.1.0"
#define TUSSOCKBELL_VERSION_MAJOR 1
#define TUSSOCKBELL_VERSION_MINOR 1
#define TUSSOCKBELL_VERSION_PATCH 0

/* The same as one number, as tussockbell_version tells it. */
#define TUSSOCKBELL_VERSION_NUMBER \
    (TUSSOCKBELL_VERSION_MAJOR * 1000000 + TUSSOCKBELL_VERSION_MINOR * 1000 + TUSSOCKBELL_VERSION_PATCH)

/* Kinds: TileDB's own Datatype numbers. */
#define TUSSOCKBELL_INT32 0
#define TUSSOCKBELL_INT64 1
#define TUSSOCKBELL_FLOAT32 2
#define TUSSOCKBELL_FLOAT64 3
#define TUSSOCKBELL_UINT64 10

/* Limits: the least and the most of each number that has them. */
#define TUSSOCKBELL_LEAST_DIMENSIONS 1
#define TUSSOCKBELL_MOST_DIMENSIONS 4
#define TUSSOCKBELL_LEAST_FIELDS 1
#define TUSSOCKBELL_MOST_FIELDS 64
#define TUSSOCKBELL_LEAST_CAPACITY 1
#define TUSSOCKBELL_MOST_CAPACITY 1000000000
#define TUSSOCKBELL_LEAST_VERSION 16
#define TUSSOCKBELL_MOST_VERSION 21
#define TUSSOCKBELL_LEAST_NAME 1
#define TUSSOCKBELL_MOST_NAME 255
#define TUSSOCKBELL_LEAST_TILES 1
#define TUSSOCKBELL_MOST_TILES 16777216
#define TUSSOCKBELL_LEAST_FANOUT 2
#define TUSSOCKBELL_MOST_FANOUT 1024

/* Refusal numbers. */
#define TUSSOCKBELL_NOT_REFUSED 0
#define TUSSOCKBELL_REFUSED_DESCRIPTION 1
#define TUSSOCKBELL_REFUSED_BYTES 2
#define TUSSOCKBELL_REFUSED_VERSION 3
#define TUSSOCKBELL_REFUSED_NAME_SIZE 4
#define TUSSOCKBELL_REFUSED_FLAG 5
#define TUSSOCKBELL_REFUSED_DENSE 6
#define TUSSOCKBELL_REFUSED_NULL_DOMAIN 7
#define TUSSOCKBELL_REFUSED_NOT_A_NUMBER 8
#define TUSSOCKBELL_REFUSED_REVERSED 9
#define TUSSOCKBELL_REFUSED_TILES 10
#define TUSSOCKBELL_REFUSED_LAST_CELLS 11
#define TUSSOCKBELL_REFUSED_OFFSET 12
#define TUSSOCKBELL_REFUSED_FANOUT 13
#define TUSSOCKBELL_REFUSED_LEVELS 14
#define TUSSOCKBELL_REFUSED_OUTSIDE_PARENT 15
#define TUSSOCKBELL_REFUSED_OUTSIDE_DOMAIN 16
#define TUSSOCKBELL_REFUSED_COUNT 17
#define TUSSOCKBELL_REFUSED_TILE_OFFSETS 18
#define TUSSOCKBELL_REFUSED_WINDOW 19
#define TUSSOCKBELL_REFUSED_SUM 20
#define TUSSOCKBELL_REFUSED_WORK 21
#define TUSSOCKBELL_REFUSED_RUNS 22
#define TUSSOCKBELL_REFUSED_INFINITE 23
#define TUSSOCKBELL_REFUSED_BAD_LINE 24
#define TUSSOCKBELL_REFUSED_REPEATED 25
#define TUSSOCKBELL_REFUSED_ROOM 26
#define TUSSOCKBELL_REFUSED_NULL_COUNT 27
#define TUSSOCKBELL_REFUSED_RETIRED 28
#define TUSSOCKBELL_REFUSED_GRID 29

/* The text of a refusal number. */
static inline const char *tussockbell_refusal_text(uint64_t number)
{
    switch (number) {
    case TUSSOCKBELL_NOT_REFUSED:
        return "not refused";
    case TUSSOCKBELL_REFUSED_DESCRIPTION:
        return "description outside the limits";
    case TUSSOCKBELL_REFUSED_BYTES:
        return "byte count or length field wrong";
    case TUSSOCKBELL_REFUSED_VERSION:
        return "version outside the limits";
    case TUSSOCKBELL_REFUSED_NAME_SIZE:
        return "name size outside the limits";
    case TUSSOCKBELL_REFUSED_FLAG:
        return "a flag byte is neither 0 nor 1";
    case TUSSOCKBELL_REFUSED_DENSE:
        return "the dense flag is not this entry's";
    case TUSSOCKBELL_REFUSED_NULL_DOMAIN:
        return "null-domain flag is 1";
    case TUSSOCKBELL_REFUSED_NOT_A_NUMBER:
        return "a range end is NaN";
    case TUSSOCKBELL_REFUSED_REVERSED:
        return "minimum above maximum";
    case TUSSOCKBELL_REFUSED_TILES:
        return "tile number outside the limits";
    case TUSSOCKBELL_REFUSED_LAST_CELLS:
        return "last tile's cells not 1 to the capacity";
    case TUSSOCKBELL_REFUSED_OFFSET:
        return "an offset not below the footer's place in the file";
    case TUSSOCKBELL_REFUSED_FANOUT:
        return "fanout outside the limits";
    case TUSSOCKBELL_REFUSED_LEVELS:
        return "level number or a level's box count wrong";
    case TUSSOCKBELL_REFUSED_OUTSIDE_PARENT:
        return "a box not inside its parent";
    case TUSSOCKBELL_REFUSED_OUTSIDE_DOMAIN:
        return "the first box not inside the domain";
    case TUSSOCKBELL_REFUSED_COUNT:
        return "a list's count is not the number of tiles";
    case TUSSOCKBELL_REFUSED_TILE_OFFSETS:
        return "tile offsets break their rule";
    case TUSSOCKBELL_REFUSED_WINDOW:
        return "the window's dimension number or a kind differs";
    case TUSSOCKBELL_REFUSED_SUM:
        return "tile sizes add up past 2^64 - 1";
    case TUSSOCKBELL_REFUSED_WORK:
        return "the work buffer is too short";
    case TUSSOCKBELL_REFUSED_RUNS:
        return "the answer run is not as long as the query run";
    case TUSSOCKBELL_REFUSED_INFINITE:
        return "a stored range end is infinite";
    case TUSSOCKBELL_REFUSED_BAD_LINE:
        return "a bad line of a listing";
    case TUSSOCKBELL_REFUSED_REPEATED:
        return "a record repeated whole";
    case TUSSOCKBELL_REFUSED_ROOM:
        return "the output buffer is too short";
    case TUSSOCKBELL_REFUSED_NULL_COUNT:
        return "a null count above its tile's cells";
    case TUSSOCKBELL_REFUSED_RETIRED:
        return "a dimension of kind float32, which is retired";
    case TUSSOCKBELL_REFUSED_GRID:
        return "a float kind, an extent of 0, or a domain that does not split into whole tiles";
    default:
        return "no refusal number";
    }
}

/* The first two places of every answer that holds a refusal. */
#define TUSSOCKBELL_NUMBER 0
#define TUSSOCKBELL_PLACE 1

/* tussockbell_footer and tussockbell_dense_footer. The domain has TUSSOCKBELL_DOMAIN_PLACES for each of
 * TUSSOCKBELL_MOST_DIMENSIONS, and each list TUSSOCKBELL_FOOTER_LIST_PLACES. */
#define TUSSOCKBELL_FOOTER_VERSION 2
#define TUSSOCKBELL_FOOTER_NAME_SIZE 3
#define TUSSOCKBELL_FOOTER_DENSE 4
#define TUSSOCKBELL_FOOTER_NULL_DOMAIN 5
#define TUSSOCKBELL_FOOTER_TILES 6
#define TUSSOCKBELL_FOOTER_LAST_CELLS 7
#define TUSSOCKBELL_FOOTER_TIMESTAMPS 8
#define TUSSOCKBELL_FOOTER_DELETES 9
#define TUSSOCKBELL_FOOTER_RTREE 10
#define TUSSOCKBELL_FOOTER_FRAGMENT 11
#define TUSSOCKBELL_FOOTER_CONDITIONS 12
#define TUSSOCKBELL_FOOTER_LENGTH 13
#define TUSSOCKBELL_FOOTER_DOMAIN 14
#define TUSSOCKBELL_DOMAIN_KIND 0
#define TUSSOCKBELL_DOMAIN_LOW 1
#define TUSSOCKBELL_DOMAIN_HIGH 2
#define TUSSOCKBELL_DOMAIN_PLACES 3
#define TUSSOCKBELL_FOOTER_FILE_SIZES 26
#define TUSSOCKBELL_FOOTER_FILE_VAR_SIZES 90
#define TUSSOCKBELL_FOOTER_FILE_VALIDITY_SIZES 154
#define TUSSOCKBELL_FOOTER_TILE_OFFSETS 218
#define TUSSOCKBELL_FOOTER_VAR_OFFSETS 282
#define TUSSOCKBELL_FOOTER_VAR_SIZES 346
#define TUSSOCKBELL_FOOTER_VALIDITY 410
#define TUSSOCKBELL_FOOTER_MINS 474
#define TUSSOCKBELL_FOOTER_MAXES 538
#define TUSSOCKBELL_FOOTER_SUMS 602
#define TUSSOCKBELL_FOOTER_NULL_COUNTS 666
#define TUSSOCKBELL_FOOTER_LIST_PLACES 64
#define TUSSOCKBELL_FOOTER_PLACES 730

/* tussockbell_schema_name */
#define TUSSOCKBELL_NAME_START 0
#define TUSSOCKBELL_NAME_LENGTH 1
#define TUSSOCKBELL_NAME_PLACES 2

/* tussockbell_open. WHICH: 0 where the place counts in the footer or in neither, 1 where it counts in the tree. */
#define TUSSOCKBELL_OPEN_WHICH 2
#define TUSSOCKBELL_OPEN_TILES 3
#define TUSSOCKBELL_OPEN_FANOUT 4
#define TUSSOCKBELL_OPEN_LEVELS 5
#define TUSSOCKBELL_OPEN_PLACES 6

/* The state of tussockbell_parts_start, tussockbell_parts_block and tussockbell_parts_finish: what its places hold is the
 * library's own business. */
#define TUSSOCKBELL_PARTS_PLACES 40

/* tussockbell_query */
#define TUSSOCKBELL_QUERY_FOUND 2
#define TUSSOCKBELL_QUERY_LOOKED 3
#define TUSSOCKBELL_QUERY_PLACES 4

/* tussockbell_query_batch. Its records are five places for each window: those of tussockbell_query, and the places of
 * the result buffer that the window used. */
#define TUSSOCKBELL_BATCH_WINDOWS 2
#define TUSSOCKBELL_BATCH_PLACES 3
#define TUSSOCKBELL_RECORD_USED 4
#define TUSSOCKBELL_RECORD_PLACES 5

/* tussockbell_box_test. MEETS is 1 where the box meets the window, else 0. */
#define TUSSOCKBELL_BOX_TEST_MEETS 2
#define TUSSOCKBELL_BOX_TEST_READ 3
#define TUSSOCKBELL_BOX_TEST_PLACES 4

/* tussockbell_offsets and tussockbell_var_offsets */
#define TUSSOCKBELL_OFFSETS_TILES 2
#define TUSSOCKBELL_OFFSETS_PLACES 3

/* tussockbell_extent, tussockbell_var_extent and tussockbell_extent_at */
#define TUSSOCKBELL_EXTENT_OFFSET 0
#define TUSSOCKBELL_EXTENT_LENGTH 1
#define TUSSOCKBELL_EXTENT_PLACES 2

/* tussockbell_sizes */
#define TUSSOCKBELL_SIZES_SUM 2
#define TUSSOCKBELL_SIZES_PLACES 3

/* tussockbell_write_tree and tussockbell_tree_length */
#define TUSSOCKBELL_WRITE_LENGTH 2
#define TUSSOCKBELL_WRITE_PLACES 3

/* tussockbell_convert, tussockbell_convert_length and tussockbell_convert_footer. WHICH: 0 where the place counts in the
 * footer or in neither, 1 where it counts in the tree. */
#define TUSSOCKBELL_CONVERT_WHICH 2
#define TUSSOCKBELL_CONVERT_LENGTH 3
#define TUSSOCKBELL_CONVERT_PLACES 4

/* tussockbell_committed. Its refusals are placed at a line, from 0. */
#define TUSSOCKBELL_COMMITTED_FOUND 2
#define TUSSOCKBELL_COMMITTED_PLACES 3

/* tussockbell_values, tussockbell_var_values and tussockbell_sums */
#define TUSSOCKBELL_VALUES_TILES 2
#define TUSSOCKBELL_VALUES_PLACES 3

/* tussockbell_ranges and tussockbell_var_ranges. WHICH: 0 where the place counts in the mins or in neither, 1 where it
 * counts in the maxes. */
#define TUSSOCKBELL_RANGES_WHICH 2
#define TUSSOCKBELL_RANGES_TILES 3
#define TUSSOCKBELL_RANGES_PLACES 4

/* tussockbell_range */
#define TUSSOCKBELL_RANGE_MIN 0
#define TUSSOCKBELL_RANGE_MAX 1
#define TUSSOCKBELL_RANGE_PLACES 2

/* tussockbell_var_value and tussockbell_var_value_at */
#define TUSSOCKBELL_VAR_VALUE_START 0
#define TUSSOCKBELL_VAR_VALUE_LENGTH 1
#define TUSSOCKBELL_VAR_VALUE_PLACES 2

/* tussockbell_null_counts. WHICH: 0 where the place counts in the footer or in neither, 1 where it counts in the body. */
#define TUSSOCKBELL_NULL_COUNTS_WHICH 2
#define TUSSOCKBELL_NULL_COUNTS_TILES 3
#define TUSSOCKBELL_NULL_COUNTS_PLACES 4

/* tussockbell_replay */
#define TUSSOCKBELL_REPLAY_LENGTH 2
#define TUSSOCKBELL_REPLAY_PLACES 3

/* tussockbell_dense_check and tussockbell_dense_query. An order of tiles is TileDB's own Layout number. */
#define TUSSOCKBELL_ROW_MAJOR 0
#define TUSSOCKBELL_COLUMN_MAJOR 1
#define TUSSOCKBELL_DENSE_CHECK_PLACES 2
#define TUSSOCKBELL_DENSE_FOUND 2
#define TUSSOCKBELL_DENSE_PLACES 3

/* tussockbell_read_plan, tussockbell_var_read_plan and tussockbell_read_plan_at */
#define TUSSOCKBELL_PLAN_RANGES 2
#define TUSSOCKBELL_PLAN_TILES 3
#define TUSSOCKBELL_PLAN_OUTSIDE 4
#define TUSSOCKBELL_PLAN_BYTES 5
#define TUSSOCKBELL_PLAN_PLACES 6

/* The version of the library that runs: 1,000,000 times its first part, 1,000 times its second, and its third. It has
 * every function of this header, and all of them answer as this header says, where the first part is this header's and
 * the number is not below TUSSOCKBELL_VERSION_NUMBER. */
uint64_t tussockbell_version(void);

/* Opens a footer of a metadata file of `file_size` bytes: every number of it. A dimension of the domain is its kind
 * number and the bit patterns of its ends, an end of 4 bytes in the low half. Dimensions past those that there are,
 * and all of them after a refusal, are an int64 range 0 to 0, so that their kind place is 1. List places past
 * `fields` are 0. */
void tussockbell_footer(const uint8_t *kinds, size_t kinds_length, uint64_t fields, uint64_t capacity, uint64_t file_size,
                        const uint8_t *footer, size_t footer_length, uint64_t *answer /* [TUSSOCKBELL_FOOTER_PLACES] */);

/* Where the schema name starts in the lent footer, and its bytes; 0 and 0 where the footer is refused. This function,
 * tussockbell_cells and tussockbell_total_cells check the whole footer on every call. */
void tussockbell_schema_name(const uint8_t *kinds, size_t kinds_length, uint64_t fields, uint64_t capacity, uint64_t file_size,
                             const uint8_t *footer, size_t footer_length, uint64_t *answer /* [TUSSOCKBELL_NAME_PLACES] */);

/* The cells of a tile, counted from 0; 0 past the last tile and where the footer is refused. */
uint64_t tussockbell_cells(const uint8_t *kinds, size_t kinds_length, uint64_t fields, uint64_t capacity, uint64_t file_size,
                           const uint8_t *footer, size_t footer_length, uint64_t tile);

/* The same with no footer, for the numbers of one that tussockbell_footer accepts: then the answer is
 * tussockbell_cells's. */
uint64_t tussockbell_cells_at(uint64_t tiles, uint64_t last_cells, uint64_t capacity, uint64_t tile);

/* The cells of all tiles; 0 where the footer is refused. */
uint64_t tussockbell_total_cells(const uint8_t *kinds, size_t kinds_length, uint64_t fields, uint64_t capacity, uint64_t file_size,
                                 const uint8_t *footer, size_t footer_length);

/* Opens a footer and a tree together, and checks every box. */
void tussockbell_open(const uint8_t *kinds, size_t kinds_length, uint64_t fields, uint64_t capacity, uint64_t file_size,
                      const uint8_t *footer, size_t footer_length, const uint8_t *tree, size_t tree_length,
                      uint64_t *answer /* [TUSSOCKBELL_OPEN_PLACES] */);

/* A tree that arrives in blocks: a start, any number of blocks, a finish. They answer as tussockbell_open does of the
 * footer and all bytes received, however these were cut, and keep no byte of a block but those of a number or a box that
 * has come in part. State and work buffer must come back at each call as the last one left them, the buffer with the same
 * length; what it holds at the first call does not matter. With any other state or buffer nothing is promised but that
 * nothing outside of them is written and nothing outside of what is lent is read. Work buffer, state, answer and block
 * do not overlap one another.
 *
 * A start takes the footer and the stated length of the tree. */
void tussockbell_parts_start(const uint8_t *kinds, size_t kinds_length, uint64_t fields, uint64_t capacity, uint64_t file_size,
                             const uint8_t *footer, size_t footer_length, uint64_t stated,
                             uint64_t *state /* [TUSSOCKBELL_PARTS_PLACES] */);

/* Takes a block, of any length. Bytes past the stated length are not read. The work buffer gets the boxes above the leaf
 * level; where it has fewer bytes than they take, the answer is TUSSOCKBELL_REFUSED_WORK at place 0. */
void tussockbell_parts_block(uint64_t *state /* [TUSSOCKBELL_PARTS_PLACES] */, uint8_t *work, size_t work_length,
                             const uint8_t *block, size_t block_length);

/* What all blocks came to, in the places of tussockbell_open. Bytes that fell short, or went past the stated length, are
 * refused with TUSSOCKBELL_REFUSED_BYTES, at the bytes received or at the stated length, unless a fault of the footer or of
 * the shape comes first. */
void tussockbell_parts_finish(const uint64_t *state /* [TUSSOCKBELL_PARTS_PLACES] */, const uint8_t *work, size_t work_length,
                              uint64_t *answer /* [TUSSOCKBELL_OPEN_PLACES] */);

/* Which tiles does a window touch, in a tree of `tiles` tiles? The answer has how many were found and how many boxes
 * were looked at. The first places of `out` hold the first tiles found, as many as fit, and the others are
 * untouched, all of them where the query is refused. The window is its own kind numbers and then, for each of them,
 * its minimum and its maximum, little-endian, of that kind. Ranges whose bytes are not all there count as 0 to 0,
 * and bytes past the last are ignored. A number of window kinds unlike the description's is
 * TUSSOCKBELL_REFUSED_WINDOW at 0; a kind unlike the description's, or a number that is no kind, is that at its
 * dimension, in its turn. Boxes are not checked again. Over a tree that tussockbell_open accepts with this
 * description and this number of tiles, the tiles found are exactly those whose box meets the window, in rising
 * order, and the number looked at is the rules' flat count. For every query that is not refused, with f the fanout
 * and L the levels, looked * (f - 1) <= L * (f - 1) + (tiles - 1) * f. */
void tussockbell_query(const uint8_t *kinds, size_t kinds_length, uint64_t fields, uint64_t capacity, uint64_t tiles,
                       const uint8_t *tree, size_t tree_length, const uint8_t *window_kinds, size_t window_kinds_length,
                       const uint8_t *window_ends, size_t window_ends_length, uint32_t *out, size_t out_length,
                       uint64_t *answer /* [TUSSOCKBELL_QUERY_PLACES] */);

/* All windows of a batch in one call, any number of them. Each window is answered as tussockbell_query answers it alone
 * with what the earlier windows left of `out`: the record of a window has what that answers, and the places of `out`
 * that it used, which follow those of the windows before it; a refused window uses none, and the next is still asked.
 * All windows have the kind numbers `window_kinds`, and `windows` holds their bytes, one window after the other: for
 * each number the minimum and the maximum. A number that is no kind counts as int32's 8 bytes, and of more than four
 * numbers the first four count. `records` has TUSSOCKBELL_RECORD_PLACES for each window. The answer has how many windows
 * were answered. Where `records_length` or `windows_length` is not that of a whole number of windows, or the two are not
 * those of the same number, the batch is refused with TUSSOCKBELL_REFUSED_RUNS at 0, before anything else is looked at,
 * and nothing is written to `records` or `out`. No other refusal is about the whole batch. */
void tussockbell_query_batch(const uint8_t *kinds, size_t kinds_length, uint64_t fields, uint64_t capacity, uint64_t tiles,
                             const uint8_t *tree, size_t tree_length, const uint8_t *window_kinds, size_t window_kinds_length,
                             const uint8_t *windows, size_t windows_length, uint64_t *records, size_t records_length,
                             uint32_t *out, size_t out_length, uint64_t *answer /* [TUSSOCKBELL_BATCH_PLACES] */);

/* Does one box, in its bytes, meet a window, and how many of its dimensions are read for that? It is the query's own
 * test, which leaves at the first dimension that misses: the number is exactly one more than that dimension's, from 0,
 * or that of all dimensions where the box meets. A stored range with NaN is a miss, and the box is not checked
 * otherwise. The description comes first, then the window, as tussockbell_query has it, and then
 * TUSSOCKBELL_REFUSED_BYTES for a number of bytes that is not a box's. */
void tussockbell_box_test(const uint8_t *kinds, size_t kinds_length, uint64_t fields, uint64_t capacity, const uint8_t *box,
                          size_t box_length, const uint8_t *window_kinds, size_t window_kinds_length,
                          const uint8_t *window_ends, size_t window_ends_length,
                          uint64_t *answer /* [TUSSOCKBELL_BOX_TEST_PLACES] */);

/* Checks the tile offsets of a data file of `size` bytes. */
void tussockbell_offsets(uint64_t tiles, uint64_t size, const uint8_t *list, size_t list_length,
                         uint64_t *answer /* [TUSSOCKBELL_OFFSETS_PLACES] */);

/* Where a tile's bytes start in the data file, and how many they are, after the whole list is checked; 0 and 0 where
 * the list is refused, and past the last tile. */
void tussockbell_extent(uint64_t tiles, uint64_t size, const uint8_t *list, size_t list_length, uint64_t tile,
                        uint64_t *answer /* [TUSSOCKBELL_EXTENT_PLACES] */);

/* Checks the var offsets of a data file of `size` bytes: the first is 0, none is below the one before or above `size`,
 * so that a tile may have no bytes. */
void tussockbell_var_offsets(uint64_t tiles, uint64_t size, const uint8_t *list, size_t list_length,
                             uint64_t *answer /* [TUSSOCKBELL_OFFSETS_PLACES] */);

/* tussockbell_extent for a list of var offsets. */
void tussockbell_var_extent(uint64_t tiles, uint64_t size, const uint8_t *list, size_t list_length, uint64_t tile,
                            uint64_t *answer /* [TUSSOCKBELL_EXTENT_PLACES] */);

/* The same with no check of the list, for one that tussockbell_offsets or tussockbell_var_offsets accepts with these
 * numbers: then the answer is tussockbell_extent's or tussockbell_var_extent's. Over other bytes an entry that is not
 * there counts as 0, and an extent below 0 as 0. */
void tussockbell_extent_at(uint64_t tiles, uint64_t size, const uint8_t *list, size_t list_length, uint64_t tile,
                           uint64_t *answer /* [TUSSOCKBELL_EXTENT_PLACES] */);

/* Checks tile sizes, and adds them up. */
void tussockbell_sizes(uint64_t tiles, const uint8_t *list, size_t list_length,
                       uint64_t *answer /* [TUSSOCKBELL_SIZES_PLACES] */);

/* Mins and maxes of a field's tiles: a count, the values, the size of the var buffer, the var buffer. The answer of a body
 * has its number of tiles. A value of a fixed kind is told as its bit pattern, one of 4 bytes in the low half.
 *
 * Checks the mins or the maxes of a field of a fixed kind. A `kind` that is no kind's number is
 * TUSSOCKBELL_REFUSED_DESCRIPTION at 0, before the number of tiles. A NaN is TUSSOCKBELL_REFUSED_NOT_A_NUMBER at its
 * start; infinities are fine. */
void tussockbell_values(uint64_t kind, uint64_t tiles, const uint8_t *body, size_t body_length,
                        uint64_t *answer /* [TUSSOCKBELL_VALUES_PLACES] */);

/* A tile's value, counted from 0, after the whole body is checked; 0 where it is refused, and past the last tile. */
uint64_t tussockbell_value(uint64_t kind, uint64_t tiles, const uint8_t *body, size_t body_length, uint64_t tile);

/* The same with no check of the body, for one that tussockbell_values or tussockbell_ranges accepts with these numbers.
 * Over other bytes a byte that is not there counts as 0. */
uint64_t tussockbell_value_at(uint64_t kind, uint64_t tiles, const uint8_t *body, size_t body_length, uint64_t tile);

/* Checks mins and maxes together: the mins whole, then the maxes whole, then each tile's min against its max, where a min
 * above its max is TUSSOCKBELL_REFUSED_REVERSED at the start of the max. */
void tussockbell_ranges(uint64_t kind, uint64_t tiles, const uint8_t *mins, size_t mins_length, const uint8_t *maxes,
                        size_t maxes_length, uint64_t *answer /* [TUSSOCKBELL_RANGES_PLACES] */);

/* A tile's min and max, after both bodies are checked together; 0 and 0 where they are refused, and past the last tile. */
void tussockbell_range(uint64_t kind, uint64_t tiles, const uint8_t *mins, size_t mins_length, const uint8_t *maxes,
                       size_t maxes_length, uint64_t tile, uint64_t *answer /* [TUSSOCKBELL_RANGE_PLACES] */);

/* Checks the mins or the maxes of a var field, whose values are starts in the var buffer: the first is 0, none is below the
 * one before or above the buffer's size, else TUSSOCKBELL_REFUSED_TILE_OFFSETS at its start. */
void tussockbell_var_values(uint64_t tiles, const uint8_t *body, size_t body_length,
                            uint64_t *answer /* [TUSSOCKBELL_VALUES_PLACES] */);

/* Where a tile's value starts in the lent body, and its bytes, after the whole body is checked; 0 and 0 where it is
 * refused, and past the last tile. */
void tussockbell_var_value(uint64_t tiles, const uint8_t *body, size_t body_length, uint64_t tile,
                           uint64_t *answer /* [TUSSOCKBELL_VAR_VALUE_PLACES] */);

/* The same with no check of the body, for one that tussockbell_var_values or tussockbell_var_ranges accepts with this
 * number of tiles. Whatever the bytes are, what is told lies in the body; 0 and 0 where the value would not. */
void tussockbell_var_value_at(uint64_t tiles, const uint8_t *body, size_t body_length, uint64_t tile,
                              uint64_t *answer /* [TUSSOCKBELL_VAR_VALUE_PLACES] */);

/* Checks mins and maxes of a var field together: the mins whole, then the maxes. Their values are not compared. */
void tussockbell_var_ranges(uint64_t tiles, const uint8_t *mins, size_t mins_length, const uint8_t *maxes, size_t maxes_length,
                            uint64_t *answer /* [TUSSOCKBELL_RANGES_PLACES] */);

/* Checks the sums of a field's tiles, a count and as many raw 64-bit values. What a sum stands for follows from the field. */
void tussockbell_sums(uint64_t tiles, const uint8_t *body, size_t body_length,
                      uint64_t *answer /* [TUSSOCKBELL_VALUES_PLACES] */);

/* A tile's sum, after the whole body is checked; 0 where it is refused, and past the last tile. */
uint64_t tussockbell_sum(uint64_t tiles, const uint8_t *body, size_t body_length, uint64_t tile);

/* The same with no check of the body, for one that tussockbell_sums accepts with this number of tiles; and a tile's null
 * count, for one that tussockbell_null_counts accepts, with the tiles of its answer. Over other bytes a byte that is not
 * there counts as 0. */
uint64_t tussockbell_sum_at(uint64_t tiles, const uint8_t *body, size_t body_length, uint64_t tile);

/* Checks a footer, and with it the null counts of a field's tiles, a count and as many u64: one above its tile's cells is
 * TUSSOCKBELL_REFUSED_NULL_COUNT at its start. */
void tussockbell_null_counts(const uint8_t *kinds, size_t kinds_length, uint64_t fields, uint64_t capacity, uint64_t file_size,
                             const uint8_t *footer, size_t footer_length, const uint8_t *body, size_t body_length,
                             uint64_t *answer /* [TUSSOCKBELL_NULL_COUNTS_PLACES] */);

/* A tile's null count, after footer and body are checked; 0 where one of them is refused, and past the last tile. */
uint64_t tussockbell_null_count(const uint8_t *kinds, size_t kinds_length, uint64_t fields, uint64_t capacity,
                                uint64_t file_size, const uint8_t *footer, size_t footer_length, const uint8_t *body,
                                size_t body_length, uint64_t tile);

/* Writes the whole R-tree of `tiles` leaf boxes to the start of `out`: each box above them is the least box around its
 * row of children, at most `fanout` of them, and between equal ends, as 0.0 and -0.0 are, has the bytes of the first
 * child that has it. A leaf box is, for each dimension, its minimum and its maximum, little-endian, of that
 * dimension's kind; the leaves stand one after the other and are checked as boxes of a tree are, with places that
 * count in `leaves`. TUSSOCKBELL_REFUSED_ROOM at 0 says that all else is well and `out` is shorter than the body. The
 * answer has the body's length in bytes; bytes of `out` past it stay, and all of them where the call is refused.
 * tussockbell_open accepts the body with every accepted footer of this description and this number of tiles whose
 * domain holds the first box. Time and memory: linear, and none but `out`. */
void tussockbell_write_tree(const uint8_t *kinds, size_t kinds_length, uint64_t fields, uint64_t capacity, uint64_t tiles,
                            uint64_t fanout, const uint8_t *leaves, size_t leaves_length, uint8_t *out, size_t out_length,
                            uint64_t *answer /* [TUSSOCKBELL_WRITE_PLACES] */);

/* The length in bytes of a tree of so many tiles with this fanout: the room that tussockbell_write_tree asks for. */
void tussockbell_tree_length(const uint8_t *kinds, size_t kinds_length, uint64_t fields, uint64_t capacity, uint64_t tiles,
                             uint64_t fanout, uint64_t *answer /* [TUSSOCKBELL_WRITE_PLACES] */);

/* Writes an old tree with its float32 ranges as float64 to the start of `out`: the same fanout, levels and counts, each
 * box side by side, the ranges of other kinds byte by byte; without a float32 dimension it is a copy. `kinds` has the
 * old kinds. Footer and tree are accepted, and refused, as tussockbell_open did when float32 was a kind like the others;
 * then TUSSOCKBELL_REFUSED_ROOM at 0 says that `out` is shorter than what is written. The answer has the length in
 * bytes; bytes of `out` past it stay, and all of them where the call is refused.
 *
 * The widened description has TUSSOCKBELL_FLOAT64 for each TUSSOCKBELL_FLOAT32, and is else the same. Under it the tree
 * is accepted with every accepted footer of that number of tiles whose domain holds the first box, and a query that was
 * not refused before, its float32 ends cast to double, has the same answer with the same buffer. An end that was
 * rounded to float for the old query is rounded so before it is cast: asked with the double 0.1 the tree may lose tiles
 * that the float 0.1f, which is above it, touches. Time and memory: linear, and none but `out`. */
void tussockbell_convert(const uint8_t *kinds, size_t kinds_length, uint64_t fields, uint64_t capacity, uint64_t file_size,
                         const uint8_t *footer, size_t footer_length, const uint8_t *tree, size_t tree_length, uint8_t *out,
                         size_t out_length, uint64_t *answer /* [TUSSOCKBELL_CONVERT_PLACES] */);

/* What tussockbell_convert answers where there is room, and so the room that it asks for. */
void tussockbell_convert_length(const uint8_t *kinds, size_t kinds_length, uint64_t fields, uint64_t capacity,
                                uint64_t file_size, const uint8_t *footer, size_t footer_length, const uint8_t *tree,
                                size_t tree_length, uint64_t *answer /* [TUSSOCKBELL_CONVERT_PLACES] */);

/* Writes an old footer with the float32 ranges of its domain as float64, and with the new length in its length field, to
 * the start of `out`; every other byte stays. It is refused as tussockbell_footer did when float32 was a kind like the
 * others, and then for room as tussockbell_convert is. What it writes, 8 bytes more for each float32 dimension, is
 * accepted under the widened description with a `file_size` that is as many bytes larger, where that is below 2^64. */
void tussockbell_convert_footer(const uint8_t *kinds, size_t kinds_length, uint64_t fields, uint64_t capacity,
                                uint64_t file_size, const uint8_t *footer, size_t footer_length, uint8_t *out,
                                size_t out_length, uint64_t *answer /* [TUSSOCKBELL_CONVERT_PLACES] */);

/* Which folders of a listing are committed, and no later than a reading time? A listing has one record a line, at most
 * 1,024 of at most 255 bytes, each ended by one newline, which the last may lack: a kind, a tab and a name. Kinds are
 * folder, wrt, con and ign; a name is __t1_t2_uuid_v, with times t1 <= t2 below 2^63 and a version v of 16 to 21. A
 * folder counts if a wrt names it, or a con names it and no ign does. The answer has how many folders count whose t2 is
 * at most `time`; the first places of `out` hold the numbers of their lines, from 0, in the order of the listing, as
 * many as fit, and the others are untouched, all of them where the listing is refused. The first line at fault decides:
 * TUSSOCKBELL_REFUSED_BAD_LINE for one that is no record, or is the 1,025th, and TUSSOCKBELL_REFUSED_REPEATED for one
 * that an earlier line is the same as. The place is that line's number. Two accepted listings that differ only in
 * folders that don't count find as many, and the same names in the same order. Time: linear in the listing, unless
 * names are made to fall together, and then at most 1,024 times a line's; memory: 56 KB of stack. */
void tussockbell_committed(const uint8_t *listing, size_t listing_length, uint64_t time, uint32_t *out, size_t out_length,
                           uint64_t *answer /* [TUSSOCKBELL_COMMITTED_PLACES] */);

/* The report of the contents of four files: description, footer, tree and offsets. Returns the length of its text,
 * which is at most TUSSOCKBELL_REPORT_MOST, and writes the text at the start of `out` if all of it fits; otherwise `out`
 * stays as it was. */
#define TUSSOCKBELL_REPORT_MOST 688212
size_t tussockbell_report(const uint8_t *description, size_t description_length, const uint8_t *footer, size_t footer_length,
                          const uint8_t *tree, size_t tree_length, const uint8_t *offsets, size_t offsets_length, uint8_t *out,
                          size_t out_length);

/* Replays a log of queries against a tree of `tiles` tiles. A line of the log is a record: tab-parted decimal numbers,
 * the minimum and the maximum of each dimension in turn, then the number found and the number looked at. A line ends in
 * one newline, which the last may lack. For each record, in order, one tab-parted line goes to `out`, ended by one
 * newline: its number, from 0, `same` or `differs`, the logged pair, and the pair found now; `same` exactly where both
 * numbers agree. A line that can't be read, is above 255 bytes or holds a query that is refused gives its number and
 * `bad`; a description with a float dimension, and one outside the limits or a tree that a query refuses, make every
 * line so. The answer has the text's length; bytes of `out` past it stay. TUSSOCKBELL_REFUSED_ROOM at 0, the one
 * refusal, says that `out` is shorter than the text: then nothing is written. TUSSOCKBELL_REPLAY_LINE bytes for each
 * line of the log are always room enough, and with so much the queries are asked once; with less they are asked once
 * more, to measure the text. */
#define TUSSOCKBELL_REPLAY_LINE 113
void tussockbell_replay(const uint8_t *kinds, size_t kinds_length, uint64_t fields, uint64_t capacity, uint64_t tiles,
                        const uint8_t *tree, size_t tree_length, const uint8_t *log, size_t log_length, uint8_t *out,
                        size_t out_length, uint64_t *answer /* [TUSSOCKBELL_REPLAY_PLACES] */);

/* Dense fragments, which have no R-tree: their tiles are a grid over a domain. `domain_kinds` and `domain_ends` are the
 * domain, as a window is given to tussockbell_query. `extents` has the cells of a tile along each dimension, and its
 * length counts numbers; one that isn't there counts as 0, and those past the dimensions are ignored. The first tile
 * begins at the domain's minimum. In the order TUSSOCKBELL_ROW_MAJOR the last dimension is the fastest, in
 * TUSSOCKBELL_COLUMN_MAJOR the first; any other number is TUSSOCKBELL_REFUSED_DESCRIPTION at 0.
 *
 * Checks a grid: the description and the order, the domain as a window is checked, then TUSSOCKBELL_REFUSED_GRID at the
 * first dimension that is of a float kind, has an extent of 0 or does not split into whole tiles, and
 * TUSSOCKBELL_REFUSED_TILES at 0 for more than TUSSOCKBELL_MOST_TILES tiles. What tussockbell_dense_query refuses of a
 * grid that is accepted here is the window's. */
void tussockbell_dense_check(const uint8_t *kinds, size_t kinds_length, uint64_t fields, uint64_t capacity,
                             const uint8_t *domain_kinds, size_t domain_kinds_length, const uint8_t *domain_ends,
                             size_t domain_ends_length, const uint64_t *extents, size_t extents_length, uint64_t order,
                             uint64_t *answer /* [TUSSOCKBELL_DENSE_CHECK_PLACES] */);

/* Which tiles of a grid have a cell in the window? The grid is checked, then the window, as tussockbell_query checks it;
 * one that lies outside the domain finds nothing, and is not refused. The answer has how many tiles are found; the first
 * places of `out` hold their numbers, from 0, rising, as many as fit, and the others are untouched, all of them where
 * the call is refused. Time: by the tiles that are written; a buffer of length 0 costs a product. */
void tussockbell_dense_query(const uint8_t *kinds, size_t kinds_length, uint64_t fields, uint64_t capacity,
                             const uint8_t *domain_kinds, size_t domain_kinds_length, const uint8_t *domain_ends,
                             size_t domain_ends_length, const uint64_t *extents, size_t extents_length, uint64_t order,
                             const uint8_t *window_kinds, size_t window_kinds_length, const uint8_t *window_ends,
                             size_t window_ends_length, uint32_t *out, size_t out_length,
                             uint64_t *answer /* [TUSSOCKBELL_DENSE_PLACES] */);

/* tussockbell_footer for the footer of a dense fragment, whose dense flag is 1. A float kind is TUSSOCKBELL_REFUSED_GRID
 * at its dimension, before any byte is looked at; a number of tiles other than 0 is TUSSOCKBELL_REFUSED_TILES; the cells
 * of the last tile may be any number; a dense flag of 0 is TUSSOCKBELL_REFUSED_DENSE. All else is as there. A dense
 * fragment has no cell counts: tussockbell_cells and tussockbell_total_cells answer 0 of its footer. */
void tussockbell_dense_footer(const uint8_t *kinds, size_t kinds_length, uint64_t fields, uint64_t capacity,
                              uint64_t file_size, const uint8_t *footer, size_t footer_length,
                              uint64_t *answer /* [TUSSOCKBELL_FOOTER_PLACES] */);

/* tussockbell_schema_name for the footer of a dense fragment; 0 and 0 where tussockbell_dense_footer refuses it. */
void tussockbell_dense_schema_name(const uint8_t *kinds, size_t kinds_length, uint64_t fields, uint64_t capacity,
                                   uint64_t file_size, const uint8_t *footer, size_t footer_length,
                                   uint64_t *answer /* [TUSSOCKBELL_NAME_PLACES] */);

/* Which bytes of the data file are read for the tiles that `run` names, in any order and however often: the found tiles
 * of a query or of a whole batch as they stand in its result buffer. Rising by tile, two neighbours among the named
 * tiles that have bytes are in one range exactly if at most `gap` bytes lie between them. A range is its start and its
 * length, two places of `out`; ranges rise, and as many whole ones as fit are written, the rest of `out` untouched. The
 * answer has how many ranges there are; how many different tiles below `tiles` the run names, those without bytes too;
 * how many entries of the run are not below `tiles`, each time they stand there, which name nothing; and how many bytes
 * all ranges have. The list is checked first, as tussockbell_offsets does; then a work buffer of fewer than `tiles` / 8
 * bytes, rounded up, is TUSSOCKBELL_REFUSED_WORK at 0. A refusal leaves `out` as it was. What the work buffer holds
 * before does not matter, and afterwards it may hold anything. It overlaps nothing else that is lent. Time: linear in
 * list and run. */
void tussockbell_read_plan(uint64_t tiles, uint64_t size, const uint8_t *list, size_t list_length, uint64_t gap,
                           const uint32_t *run, size_t run_length, uint8_t *work, size_t work_length, uint64_t *out,
                           size_t out_length, uint64_t *answer /* [TUSSOCKBELL_PLAN_PLACES] */);

/* tussockbell_read_plan for a list of var offsets. A tile that has no bytes neither makes a range nor joins two. */
void tussockbell_var_read_plan(uint64_t tiles, uint64_t size, const uint8_t *list, size_t list_length, uint64_t gap,
                               const uint32_t *run, size_t run_length, uint8_t *work, size_t work_length, uint64_t *out,
                               size_t out_length, uint64_t *answer /* [TUSSOCKBELL_PLAN_PLACES] */);

/* The same with no check of the list, for one that tussockbell_offsets or tussockbell_var_offsets accepts with these
 * numbers. Over other bytes a tile's are those that tussockbell_extent_at tells, and a difference below 0 counts as 0. */
void tussockbell_read_plan_at(uint64_t tiles, uint64_t size, const uint8_t *list, size_t list_length, uint64_t gap,
                              const uint32_t *run, size_t run_length, uint8_t *work, size_t work_length, uint64_t *out,
                              size_t out_length, uint64_t *answer /* [TUSSOCKBELL_PLAN_PLACES] */);

/* tussockbell_extent_at of each entry of a run, two places of `out` an entry, in the run's order, as many whole ones as
 * fit; the rest of `out` is untouched. */
void tussockbell_run_extents_at(uint64_t tiles, uint64_t size, const uint8_t *list, size_t list_length, const uint32_t *run,
                                size_t run_length, uint64_t *out, size_t out_length);

/* tussockbell_cells_at of each entry of a run, in the run's order, as many as fit; the rest of `out` is untouched. */
void tussockbell_run_cells_at(uint64_t tiles, uint64_t last_cells, uint64_t capacity, const uint32_t *run,
                              size_t run_length, uint64_t *out, size_t out_length);

#ifdef __cplusplus
}
#endif

#endif
