/* Asks tree A of the rules for some windows, and prints what each call answers. */
#include "tussockbell.h"

#include <inttypes.h>
#include <stdio.h>
#include <string.h>

static size_t put(uint8_t *bytes, size_t at, uint64_t number, size_t width)
{
    for (size_t i = 0; i < width; i++) {
        bytes[at + i] = (uint8_t)(number >> (8 * i));
    }
    return at + width;
}

static size_t range(uint8_t *bytes, size_t at, int32_t low, int32_t high)
{
    at = put(bytes, at, (uint32_t)low, 4);
    return put(bytes, at, (uint32_t)high, 4);
}

static void show(const char *what, const uint64_t *answer, size_t places)
{
    printf("%s:", what);
    for (size_t i = 0; i < places; i++) {
        printf(" %" PRIu64, answer[i]);
    }
    printf("\n");
}

static const uint8_t kinds[1] = {TUSSOCKBELL_INT32};

/* A footer of one field over three tiles, the last of 5 cells. */
static size_t footer_bytes(uint8_t *footer)
{
    size_t at = put(footer, 0, 21, 4);
    at = put(footer, at, 6, 8);
    memcpy(footer + at, "schema", 6);
    at += 6;
    at = put(footer, at, 0, 2);
    at = range(footer, at, -1, 24);
    at = put(footer, at, 3, 8);
    at = put(footer, at, 5, 8);
    at = put(footer, at, 0, 1);
    at = put(footer, at, 1, 1);
    for (uint64_t i = 0; i < 14; i++) {
        at = put(footer, at, 10 + i, 8);
    }
    return put(footer, at, at, 8);
}

static void query(const uint8_t *tree, size_t length, const uint8_t *window_kinds, size_t count, int32_t low, int32_t high)
{
    uint8_t ends[8];
    uint32_t out[3] = {9, 9, 9};
    uint64_t answer[TUSSOCKBELL_QUERY_PLACES];
    range(ends, 0, low, high);
    tussockbell_query(kinds, 1, 1, 32, 3, tree, length, window_kinds, count, ends, sizeof ends, out, 3, answer);
    printf("[%" PRId32 ", %" PRId32 "] ", low, high);
    show("query", answer, TUSSOCKBELL_QUERY_PLACES);
    printf("  %s; buffer %" PRIu32 " %" PRIu32 " %" PRIu32 "\n", tussockbell_refusal_text(answer[TUSSOCKBELL_NUMBER]), out[0],
           out[1], out[2]);
}

/* A log of three records, the last of which is reversed and lacks its newline, with so much room. */
static void replay(const uint8_t *tree, size_t length, size_t room)
{
    static const char log[] = "12\t21\t2\t6\n5\t9\t1\t5\n9\t5\t0\t0";
    uint8_t out[3 * TUSSOCKBELL_REPLAY_LINE];
    uint64_t answer[TUSSOCKBELL_REPLAY_PLACES];
    tussockbell_replay(kinds, 1, 1, 32, 3, tree, length, (const uint8_t *)log, sizeof log - 1, out, room, answer);
    show("replay", answer, TUSSOCKBELL_REPLAY_PLACES);
    printf("%.*s", (int)answer[TUSSOCKBELL_REPLAY_LENGTH], (const char *)out);
}

/* Three windows in one call, the second of them reversed, with room for `room` tiles and numbers for `places / 5` answers. */
static void batch(const uint8_t *tree, size_t length, size_t room, size_t places)
{
    uint8_t windows[24];
    uint32_t out[5] = {9, 9, 9, 9, 9};
    uint64_t records[3 * TUSSOCKBELL_RECORD_PLACES];
    uint64_t answer[TUSSOCKBELL_BATCH_PLACES];
    memset(records, 0, sizeof records);
    range(windows, range(windows, range(windows, 0, 12, 21), 4, 3), 0, 24);
    tussockbell_query_batch(kinds, 1, 1, 32, 3, tree, length, kinds, 1, windows, sizeof windows, records, places, out, room,
                            answer);
    show("batch", answer, TUSSOCKBELL_BATCH_PLACES);
    for (size_t at = 0; at + TUSSOCKBELL_RECORD_PLACES <= places; at += TUSSOCKBELL_RECORD_PLACES) {
        show("  record", records + at, TUSSOCKBELL_RECORD_PLACES);
    }
    printf("  %s; buffer %" PRIu32 " %" PRIu32 " %" PRIu32 " %" PRIu32 " %" PRIu32 "\n",
           tussockbell_refusal_text(answer[TUSSOCKBELL_NUMBER]), out[0], out[1], out[2], out[3], out[4]);
}

/* A box from 0 to 4 and from 10 to 14, against a window that reaches to 9 and to 19. */
static void box_test(size_t length, int32_t first, int32_t second)
{
    const uint8_t both[2] = {TUSSOCKBELL_INT32, TUSSOCKBELL_INT32};
    uint8_t box[16], ends[16];
    uint64_t answer[TUSSOCKBELL_BOX_TEST_PLACES];
    range(box, range(box, 0, 0, 4), 10, 14);
    range(ends, range(ends, 0, first, 9), second, 19);
    tussockbell_box_test(both, 2, 1, 32, box, length, both, 2, ends, sizeof ends, answer);
    show("box test", answer, TUSSOCKBELL_BOX_TEST_PLACES);
}

/* Asks a tree of one tile, whose ids go from 2^63 - 1 to 2^64 - 1. */
static void channels(uint8_t window_kind, uint64_t low, uint64_t high)
{
    static const uint8_t kind[1] = {TUSSOCKBELL_UINT64};
    uint8_t tree[32];
    uint8_t ends[16];
    uint64_t answer[TUSSOCKBELL_QUERY_PLACES];
    size_t length = put(tree, put(tree, put(tree, 0, 2, 4), 1, 4), 1, 8);
    length = put(tree, put(tree, length, UINT64_MAX / 2, 8), UINT64_MAX, 8);
    put(ends, put(ends, 0, low, 8), high, 8);
    tussockbell_query(kind, 1, 1, 32, 1, tree, length, &window_kind, 1, ends, sizeof ends, NULL, 0, answer);
    printf("[%" PRIu64 ", %" PRIu64 "] ", low, high);
    show("channels", answer, TUSSOCKBELL_QUERY_PLACES);
}

/* A grid of 10 by 4 tiles over 100 by 100 cells, with extents of 10 and of what is given, and a window over four tiles. */
static void dense(uint64_t second, size_t extents_length, uint64_t order, int32_t low, size_t room)
{
    const uint8_t both[2] = {TUSSOCKBELL_INT32, TUSSOCKBELL_INT32};
    const uint64_t extents[2] = {10, second};
    uint8_t domain[16], ends[16];
    uint32_t out[5] = {9, 9, 9, 9, 9};
    uint64_t checked[TUSSOCKBELL_DENSE_CHECK_PLACES];
    uint64_t answer[TUSSOCKBELL_DENSE_PLACES];
    range(domain, range(domain, 0, 0, 99), -50, 49);
    range(ends, range(ends, 0, low, 14), -20, 0);
    tussockbell_dense_check(both, 2, 1, 32, both, 2, domain, sizeof domain, extents, extents_length, order, checked);
    show("dense check", checked, TUSSOCKBELL_DENSE_CHECK_PLACES);
    tussockbell_dense_query(both, 2, 1, 32, both, 2, domain, sizeof domain, extents, extents_length, order, both, 2, ends,
                            sizeof ends, out, room, answer);
    show("dense", answer, TUSSOCKBELL_DENSE_PLACES);
    printf("  %s; buffer %" PRIu32 " %" PRIu32 " %" PRIu32 " %" PRIu32 " %" PRIu32 "\n",
           tussockbell_refusal_text(answer[TUSSOCKBELL_NUMBER]), out[0], out[1], out[2], out[3], out[4]);
}

/* The footer with another dense flag and another number of tiles, through the dense entry. */
static void dense_footer(uint8_t *footer, size_t length, uint8_t flag, uint64_t tiles)
{
    uint64_t all[TUSSOCKBELL_FOOTER_PLACES];
    uint64_t name[TUSSOCKBELL_NAME_PLACES];
    footer[18] = flag;
    put(footer, 28, tiles, 8);
    tussockbell_dense_footer(kinds, 1, 1, 32, length + 1000, footer, length, all);
    show("dense footer", all, TUSSOCKBELL_FOOTER_FILE_SIZES);
    tussockbell_dense_schema_name(kinds, 1, 1, 32, length + 1000, footer, length, name);
    show("  name", name, TUSSOCKBELL_NAME_PLACES);
}

/* Four folders: of the first a wrt is there, of the second nothing, of the third a con and an ign, of the fourth a con. */
static void committed(const char *last, uint64_t time, size_t room)
{
    char listing[512];
    snprintf(listing, sizeof listing,
             "folder\t__1_2_a_21\nfolder\t__1_2_b_21\nfolder\t__3_3_c_21\nfolder\t__4_5_d_21\nwrt\t__1_2_a_21\n"
             "con\t__3_3_c_21\nign\t__3_3_c_21\ncon\t__4_5_d_21%s",
             last);
    uint32_t out[3] = {9, 9, 9};
    uint64_t answer[TUSSOCKBELL_COMMITTED_PLACES];
    tussockbell_committed((const uint8_t *)listing, strlen(listing), time, out, room, answer);
    show("committed", answer, TUSSOCKBELL_COMMITTED_PLACES);
    printf("  %s; buffer %" PRIu32 " %" PRIu32 " %" PRIu32 "\n", tussockbell_refusal_text(answer[TUSSOCKBELL_NUMBER]), out[0],
           out[1], out[2]);
}

/* The bits of tree A as float32, from before that was retired: refused, and converted. The domain's minimum, -1, is a NaN. */
static void convert(const uint8_t *tree, size_t length, uint8_t *footer, size_t footer_length, uint64_t size)
{
    const uint8_t old[1] = {TUSSOCKBELL_FLOAT32};
    const uint8_t wide[1] = {TUSSOCKBELL_FLOAT64};
    uint8_t out[130] = {0};
    uint8_t new_footer[256];
    uint64_t opened[TUSSOCKBELL_OPEN_PLACES];
    uint64_t answer[TUSSOCKBELL_CONVERT_PLACES];
    tussockbell_open(old, 1, 1, 32, size, footer, footer_length, tree, length, opened);
    show("open float32", opened, TUSSOCKBELL_OPEN_PLACES);
    printf("  %s\n", tussockbell_refusal_text(opened[TUSSOCKBELL_NUMBER]));
    tussockbell_convert_length(old, 1, 1, 32, size, footer, footer_length, tree, length, answer);
    show("convert with a NaN", answer, TUSSOCKBELL_CONVERT_PLACES);
    range(footer, 20, 0, 24);
    tussockbell_convert_length(old, 1, 1, 32, size, footer, footer_length, tree, length, answer);
    show("converted length", answer, TUSSOCKBELL_CONVERT_PLACES);
    tussockbell_convert(old, 1, 1, 32, size, footer, footer_length, tree, length, out, 127, answer);
    show("convert without room", answer, TUSSOCKBELL_CONVERT_PLACES);
    tussockbell_convert(old, 1, 1, 32, size, footer, footer_length, tree, length - 1, out, sizeof out, answer);
    show("convert a cut tree", answer, TUSSOCKBELL_CONVERT_PLACES);
    tussockbell_convert(old, 1, 1, 32, size, footer, footer_length, tree, length, out, sizeof out, answer);
    show("convert", answer, TUSSOCKBELL_CONVERT_PLACES);
    tussockbell_convert_footer(old, 1, 1, 32, size, footer, footer_length, new_footer, sizeof new_footer, answer);
    show("convert footer", answer, TUSSOCKBELL_CONVERT_PLACES);
    tussockbell_open(wide, 1, 1, 32, size + 8, new_footer, (size_t)answer[TUSSOCKBELL_CONVERT_LENGTH], out, 128, opened);
    show("open float64", opened, TUSSOCKBELL_OPEN_PLACES);
}

typedef void plan_function(uint64_t, uint64_t, const uint8_t *, size_t, uint64_t, const uint32_t *, size_t, uint8_t *,
                           size_t, uint64_t *, size_t, uint64_t *);

/* What is read for a run of tiles, with room for some numbers and a work buffer of some bytes. */
static void plan(const char *what, plan_function *ask, const uint8_t *list, uint64_t gap, size_t work_length, size_t room)
{
    static const uint32_t run[4] = {2, 0, 2, 7};
    uint8_t work[1] = {0xa5};
    uint64_t out[4] = {9, 9, 9, 9};
    uint64_t answer[TUSSOCKBELL_PLAN_PLACES];
    ask(3, 300, list, 32, gap, run, 4, work, work_length, out, room, answer);
    show(what, answer, TUSSOCKBELL_PLAN_PLACES);
    show("  out", out, 4);
}

/* Read plans, and extents and cells of many tiles. */
static void plans(void)
{
    static const uint32_t run[4] = {2, 0, 2, 7};
    uint8_t list[32];
    uint64_t out[8];
    put(list, put(list, put(list, put(list, 0, 3, 8), 0, 8), 100, 8), 250, 8);
    plan("a gap that is too wide", tussockbell_read_plan, list, 149, 1, 4);
    plan("a gap", tussockbell_read_plan, list, 150, 1, 4);
    plan("room for a range and a half", tussockbell_read_plan_at, list, 0, 1, 3);
    plan("no work buffer", tussockbell_read_plan, list, 0, 0, 4);
    tussockbell_run_extents_at(3, 300, list, 32, run, 4, out, 8);
    show("extents", out, 8);
    tussockbell_run_cells_at(3, 5, 32, run, 4, out, 4);
    show("cells", out, 4);
    put(list, 24, 300, 8);
    plan("a last tile without bytes", tussockbell_var_read_plan, list, 0, 1, 4);
    plan("the same as no var list", tussockbell_read_plan, list, 0, 1, 4);
}

int main(void)
{
    uint8_t tree[80];
    size_t length = put(tree, put(tree, 0, 2, 4), 3, 4);
    length = range(tree, put(tree, length, 1, 8), 0, 24);
    length = range(tree, put(tree, length, 2, 8), 0, 14);
    length = range(tree, length, 20, 24);
    length = range(tree, put(tree, length, 3, 8), 0, 4);
    length = range(tree, length, 10, 14);
    length = range(tree, length, 20, 24);

    const uint8_t no_kind[1] = {4};
    const uint8_t other_kind[1] = {TUSSOCKBELL_FLOAT32};
    query(tree, length, kinds, 1, 12, 21);
    query(tree, length, kinds, 1, 5, 9);
    query(tree, length, kinds, 1, 30, 40);
    query(tree, length, kinds, 1, 4, 4);
    query(tree, length, kinds, 1, 4, 3);
    query(tree, length, no_kind, 1, 4, 4);
    query(tree, length, other_kind, 1, 4, 4);
    query(tree, length, NULL, 0, 4, 4);
    batch(tree, length, 5, 15);
    batch(tree, length, 4, 15);
    batch(tree, length, 5, 10);
    batch(tree, length, 5, 14);
    box_test(16, 4, 14);
    box_test(16, 4, 15);
    box_test(16, 5, 15);
    box_test(15, 5, 15);
    box_test(15, 5, 20);
    channels(TUSSOCKBELL_UINT64, 0, UINT64_MAX / 2 - 1);
    channels(TUSSOCKBELL_UINT64, 0, UINT64_MAX / 2);
    channels(TUSSOCKBELL_UINT64, UINT64_MAX / 2 + 1, UINT64_MAX - 1);
    channels(TUSSOCKBELL_UINT64, UINT64_MAX / 2 + 1, 0);
    channels(TUSSOCKBELL_INT64, 0, 1);

    uint8_t footer[256];
    size_t footer_length = footer_bytes(footer);
    uint64_t size = footer_length + 1000;
    uint64_t opened[TUSSOCKBELL_OPEN_PLACES];
    tussockbell_open(kinds, 1, 1, 32, size, footer, footer_length, tree, length, opened);
    show("open", opened, TUSSOCKBELL_OPEN_PLACES);
    tussockbell_open(no_kind, 1, 1, 32, size, footer, footer_length, tree, length, opened);
    show("open with no kind", opened, TUSSOCKBELL_OPEN_PLACES);
    tussockbell_open(kinds, 1, 1, 32, size, NULL, 0, NULL, 0, opened);
    show("open nothing", opened, TUSSOCKBELL_OPEN_PLACES);

    uint64_t all[TUSSOCKBELL_FOOTER_PLACES];
    tussockbell_footer(kinds, 1, 1, 32, size, footer, footer_length, all);
    show("footer", all, TUSSOCKBELL_FOOTER_FILE_SIZES);
    for (size_t at = TUSSOCKBELL_FOOTER_FILE_SIZES; at < TUSSOCKBELL_FOOTER_PLACES; at += TUSSOCKBELL_FOOTER_LIST_PLACES) {
        show("list", all + at, 2);
    }
    tussockbell_footer(kinds, 1, 1, 32, 0, footer, footer_length, all);
    show("footer of no file", all, TUSSOCKBELL_FOOTER_FILE_SIZES);

    uint64_t name[TUSSOCKBELL_NAME_PLACES];
    tussockbell_schema_name(kinds, 1, 1, 32, size, footer, footer_length, name);
    show("name", name, TUSSOCKBELL_NAME_PLACES);
    printf("  %.*s\n", (int)name[TUSSOCKBELL_NAME_LENGTH], (const char *)footer + name[TUSSOCKBELL_NAME_START]);
    printf("cells: %" PRIu64 " %" PRIu64 " %" PRIu64 ", all %" PRIu64 "\n",
           tussockbell_cells(kinds, 1, 1, 32, size, footer, footer_length, 0),
           tussockbell_cells(kinds, 1, 1, 32, size, footer, footer_length, 2),
           tussockbell_cells(kinds, 1, 1, 32, size, footer, footer_length, 3),
           tussockbell_total_cells(kinds, 1, 1, 32, size, footer, footer_length));
    printf("cells at: %" PRIu64 " %" PRIu64 " %" PRIu64 "\n", tussockbell_cells_at(3, 5, 32, 1), tussockbell_cells_at(3, 5, 32, 2),
           tussockbell_cells_at(3, 5, 32, 3));

    uint8_t list[32];
    size_t list_length = put(list, put(list, put(list, put(list, 0, 3, 8), 0, 8), 100, 8), 250, 8);
    uint64_t offsets[TUSSOCKBELL_OFFSETS_PLACES];
    uint64_t extent[TUSSOCKBELL_EXTENT_PLACES];
    uint64_t sizes[TUSSOCKBELL_SIZES_PLACES];
    tussockbell_offsets(3, 300, list, list_length, offsets);
    show("offsets", offsets, TUSSOCKBELL_OFFSETS_PLACES);
    tussockbell_offsets(3, 250, list, list_length, offsets);
    show("offsets past the end", offsets, TUSSOCKBELL_OFFSETS_PLACES);
    tussockbell_extent(3, 300, list, list_length, 1, extent);
    show("extent", extent, TUSSOCKBELL_EXTENT_PLACES);
    tussockbell_extent_at(3, 300, list, list_length, 2, extent);
    show("extent of the last", extent, TUSSOCKBELL_EXTENT_PLACES);
    put(list, 24, 300, 8);
    tussockbell_offsets(3, 300, list, list_length, offsets);
    show("offsets with one at the end", offsets, TUSSOCKBELL_OFFSETS_PLACES);
    tussockbell_var_offsets(3, 300, list, list_length, offsets);
    show("var offsets with one at the end", offsets, TUSSOCKBELL_OFFSETS_PLACES);
    tussockbell_var_extent(3, 300, list, list_length, 2, extent);
    show("var extent of the last", extent, TUSSOCKBELL_EXTENT_PLACES);
    tussockbell_sizes(3, list, list_length, sizes);
    show("sizes", sizes, TUSSOCKBELL_SIZES_PLACES);

    committed("", 5, 3);
    committed("\n", 4, 3);
    committed("\n", UINT64_MAX, 1);
    committed("\n\n", 5, 3);
    committed("\nwrt\t__1_2_a_21", 5, 3);
    tussockbell_committed(NULL, 0, 0, NULL, 0, sizes);
    show("nothing committed", sizes, TUSSOCKBELL_COMMITTED_PLACES);
    replay(tree, length, 3 * TUSSOCKBELL_REPLAY_LINE);
    replay(tree, length, 20);
    convert(tree, length, footer, footer_length, size);

    dense(25, 2, TUSSOCKBELL_ROW_MAJOR, 5, 5);
    dense(25, 2, TUSSOCKBELL_COLUMN_MAJOR, 5, 3);
    dense(25, 2, TUSSOCKBELL_ROW_MAJOR, 15, 5);
    dense(30, 2, TUSSOCKBELL_ROW_MAJOR, 5, 5);
    dense(25, 1, TUSSOCKBELL_ROW_MAJOR, 5, 5);
    dense(25, 2, 2, 5, 5);
    tussockbell_dense_query(kinds, 1, 1, 32, NULL, 0, NULL, 0, NULL, 0, 0, NULL, 0, NULL, 0, NULL, 0, sizes);
    show("nothing dense", sizes, TUSSOCKBELL_DENSE_PLACES);
    dense_footer(footer, footer_length, 1, 0);
    dense_footer(footer, footer_length, 1, 3);
    dense_footer(footer, footer_length, 0, 3);
    tussockbell_footer(kinds, 1, 1, 32, size, footer, footer_length, all);
    show("sparse again", all, 8);
    plans();
    return 0;
}
