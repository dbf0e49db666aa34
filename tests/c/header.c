/* What htm.h says beside the calls: its version; each refusal by its name; that each length is enough where most is needed, and one element less is not; and
 * that a list of no elements may be a null pointer, in each call that takes a list.
 *
 *   header     one line a part; exit status 1 where something is not so */
#include <stdbool.h>
#include <stdio.h>
#include <string.h>

#include "htm.h"

#define CONVEXES 64
#define IN_CONVEX 8 /* so that there are 512 halfspaces in all */

static long asked, wrong;

static void must(bool is, const char *what)
{
    asked++;
    if (is)
        return;
    wrong++;
    printf("header: it is not so that %s\n", what);
}

static void must_be(int64_t answer, int64_t wanted, const char *what)
{
    must(answer == wanted, what);
    if (answer != wanted)
        printf("header: it is %lld, not %lld\n", (long long)answer, (long long)wanted);
}

static int32_t rows[HTM_ROWS_LENGTH];
static uint8_t file[HTM_FILE_BYTES + 1], other[HTM_FILE_BYTES + 1], name[HTM_NAME_BYTES];
static uint64_t ranges[HTM_RANGES_LENGTH], more[HTM_RANGES_LENGTH], header[HTM_CONTENTS_LENGTH], counts[HTM_TRIAL_COUNTS], part[HTM_PART_LENGTH];
static int64_t list[HTM_INDEX_LENGTH], entry[HTM_ENTRY_LENGTH];
static uint32_t numbers[HTM_NUMBERS_LENGTH];
static int32_t corners[HTM_CORNERS_LENGTH];

/* The rows of `all` halfspaces, each of them the northern hemisphere, `in_convex` in a convex. */
static size_t hemispheres(int all, int in_convex)
{
    for (int i = 0; i < all; i++) {
        int32_t *row = rows + 5 * i;
        row[0] = i / in_convex;
        row[1] = row[2] = row[4] = 0;
        row[3] = HTM_K;
    }
    return 5 * (size_t)all;
}

/* ---- version and refusals */

static void version(void)
{
    char text[32];
    snprintf(text, sizeof text, "%d.%d.%d", HTM_VERSION_MAJOR, HTM_VERSION_MINOR, HTM_VERSION_PATCH);
    must(strcmp(text, HTM_VERSION) == 0, "the version has the numbers of its parts");
}

/* A plain file of one hemisphere, and before its end a convex in the other style. */
static size_t write_mixed(void)
{
    size_t n = hemispheres(1, 1), plain = (size_t)htm_write(1, 1, rows, n, file, sizeof file);
    size_t grouped = (size_t)htm_write_grouped(1, 1, rows, n, other, sizeof other);
    memcpy(file + plain - 4, other + 8, grouped - 8);
    return plain - 4 + grouped - 8;
}

static void refusals(void)
{
    static const uint8_t unknown[] = {4, 0, 9, 0}, early[] = {4, 0, 2, 0};
    size_t one = hemispheres(1, 1);
    must_be(htm_holds(file, HTM_FILE_BYTES + 1, 0, 0, HTM_K), -HTM_LONG, "a file of one byte more is too long");
    must_be(htm_holds(file, 3, 0, 0, HTM_K), -HTM_TORN, "three bytes are torn");
    must_be(htm_holds(unknown, sizeof unknown, 0, 0, HTM_K), -HTM_KIND, "kind 9 is unknown");
    must_be(htm_holds(early, sizeof early, 0, 0, HTM_K), -HTM_ORDER, "a convex does not come first");
    must_be(htm_write(HTM_MAX_DEPTH + 1, 1, rows, one, file, sizeof file), -HTM_DEPTH, "a depth is at most HTM_MAX_DEPTH");
    must_be(htm_write(1, HTM_MAX_BUDGET + 1, rows, one, file, sizeof file), -HTM_BUDGET, "a budget is at most HTM_MAX_BUDGET");
    must_be(htm_write(1, 1, rows, hemispheres(101, 101), file, sizeof file), -HTM_CROWD, "a convex has at most 100 halfspaces");
    must_be(htm_holds(file, (size_t)htm_write(1, 1, rows, one, file, sizeof file), 0, 0, HTM_K - 3), -HTM_VECTOR, "HTM_K - 3 is too short");
    rows[4] = HTM_K + 1;
    must_be(htm_write(1, 1, rows, one, file, sizeof file), -HTM_OFFSET, "an offset is at most HTM_K");
    must_be(htm_name(8, name, 1), -HTM_SPACE, "one byte is no room for a name");
    must_be(htm_name(0, name, sizeof name), -HTM_NAME, "0 is no identifier");
    must_be(htm_lookup_f64(0, 0, 1.5, 1), -HTM_FLOAT, "1.5 is beyond 1");
    must_be(htm_lookup_line((const uint8_t *)"0 0 1\n", 6, 1), -HTM_LINE, "a decimal has a point");
    must_be(htm_holds(file, write_mixed(), 0, 0, HTM_K), -HTM_MIXED, "styles are not mixed");
    must_be(htm_index_begin(list, HTM_INDEX_LENGTH), 0, "an index begins");
    for (uint32_t i = 0; i < HTM_NUMBERS_LENGTH; i++)
        must_be(htm_add(list, HTM_INDEX_LENGTH, 1, i, 0, 0, HTM_K), 0, "an owner has HTM_NUMBERS_LENGTH exposures");
    must_be(htm_add(list, HTM_INDEX_LENGTH, 1, 7, 0, 0, HTM_K), -HTM_TWICE, "a number is there once");
    must_be(htm_add(list, HTM_INDEX_LENGTH, 1, HTM_NUMBERS_LENGTH, 0, 0, HTM_K), -HTM_FULL, "an owner has no more exposures");
    must_be(htm_remove(list, HTM_INDEX_LENGTH, 0, 7), -HTM_ABSENT, "the other owner has none");
    must_be(htm_remove(list, HTM_INDEX_LENGTH, 2, 7), -HTM_OWNER, "there is no owner 2");
}

/* ---- limits and lengths, each where most is needed: enough, and one less is not. The index is the one that refusals left, with all of owner 1. */

static void limits(void)
{
    size_t one = hemispheres(1, 1);
    must_be(htm_write(HTM_MAX_DEPTH, 1, rows, one, file, sizeof file), 36, "HTM_MAX_DEPTH is a depth");
    must_be(htm_write(1, HTM_MAX_BUDGET, rows, one, other, sizeof other), 36, "HTM_MAX_BUDGET is a budget");
    must_be(htm_write(1, 0, rows, one, file, sizeof file), 36, "0 is a budget");
    must_be(htm_cover(file, 36, ranges, 4 * HTM_DEFAULT_BUDGET, counts, HTM_COVER_COUNTS), 0, "a budget of 0 is HTM_DEFAULT_BUDGET");
    must_be(htm_cover(file, 36, ranges, 4 * HTM_DEFAULT_BUDGET - 1, counts, HTM_COVER_COUNTS), -HTM_SPACE, "a budget of 0 is no less");
}

static void lengths(void)
{
    const size_t all = hemispheres(CONVEXES * IN_CONVEX, IN_CONVEX);
    const uint64_t deepest = UINT64_MAX;
    must(all == HTM_ROWS_LENGTH, "the largest region has HTM_ROWS_LENGTH numbers");
    must_be(htm_name(deepest, name, HTM_NAME_BYTES), HTM_NAME_BYTES, "a name of depth 31 has HTM_NAME_BYTES bytes");
    must_be(htm_name(deepest, name, HTM_NAME_BYTES - 1), -HTM_SPACE, "a name of depth 31 has no fewer");
    must(HTM_NAME_BYTES == HTM_MAX_NAME_DEPTH + 1 && htm_identifier(name, HTM_NAME_BYTES) == deepest, "a name has a digit for each depth");
    must_be(htm_corners(8, corners, HTM_CORNERS_LENGTH), 0, "corners");
    must_be(htm_corners(8, corners, HTM_CORNERS_LENGTH - 1), -HTM_SPACE, "fewer corners");
    must_be(htm_write(1, HTM_MAX_BUDGET, rows, all, file, HTM_FILE_BYTES - 1), -HTM_SPACE, "fewer bytes");
    must_be(htm_write(1, HTM_MAX_BUDGET, rows, all, file, HTM_FILE_BYTES), HTM_FILE_BYTES, "the largest file");
    must_be(htm_write_grouped(1, HTM_MAX_BUDGET, rows, all, other, HTM_FILE_BYTES), 8460, "the largest grouped file");
    must_be(htm_read(file, HTM_FILE_BYTES, rows, HTM_ROWS_LENGTH, header, HTM_HEADER_LENGTH), 0, "rows and header");
    must_be(htm_read(file, HTM_FILE_BYTES, rows, HTM_ROWS_LENGTH - 1, header, HTM_HEADER_LENGTH), -HTM_SPACE, "fewer rows");
    must_be(htm_read(file, HTM_FILE_BYTES, rows, HTM_ROWS_LENGTH, header, HTM_HEADER_LENGTH - 1), -HTM_SPACE, "fewer of the header");
    must_be(htm_cover(file, HTM_FILE_BYTES, ranges, HTM_RANGES_LENGTH, counts, HTM_COVER_COUNTS), 0, "ranges and counts");
    must_be(htm_cover(file, HTM_FILE_BYTES, ranges, HTM_RANGES_LENGTH - 1, counts, HTM_COVER_COUNTS), -HTM_SPACE, "fewer ranges");
    must_be(htm_cover(file, HTM_FILE_BYTES, ranges, HTM_RANGES_LENGTH, counts, HTM_COVER_COUNTS - 1), -HTM_SPACE, "fewer counts of a cover");
    must_be(htm_index_count(list, HTM_INDEX_LENGTH), HTM_NUMBERS_LENGTH, "an index");
    must_be(htm_index_count(list, HTM_INDEX_LENGTH - 1), -HTM_SPACE, "a shorter index");
    must_be(htm_index_entry(list, HTM_INDEX_LENGTH, 0, entry, HTM_ENTRY_LENGTH), 1, "an entry");
    must_be(htm_index_entry(list, HTM_INDEX_LENGTH, 0, entry, HTM_ENTRY_LENGTH - 1), -HTM_SPACE, "a shorter entry");
    for (size_t n = HTM_NUMBERS_LENGTH - 1; n <= HTM_NUMBERS_LENGTH; n++)
        for (size_t k = HTM_FRAME_COUNTS - 1; k <= HTM_FRAME_COUNTS; k++)
            must_be(htm_frames(list, HTM_INDEX_LENGTH, 1, file, HTM_FILE_BYTES, ranges, HTM_RANGES_LENGTH, numbers, n, counts, k),
                    n == HTM_NUMBERS_LENGTH && k == HTM_FRAME_COUNTS ? 0 : -HTM_SPACE, "numbers and counts of frames");
    must(counts[0] == HTM_NUMBERS_LENGTH, "all numbers of an owner are delivered");
    for (size_t k = HTM_TRIAL_COUNTS - 1; k <= HTM_TRIAL_COUNTS; k++)
        must_be(htm_trial(list, HTM_INDEX_LENGTH, 1, file, HTM_FILE_BYTES, 1, HTM_MAX_BUDGET, 2, 0, ranges, HTM_RANGES_LENGTH, more, 4 * HTM_DEFAULT_BUDGET,
                          counts, k), k == HTM_TRIAL_COUNTS ? 0 : -HTM_SPACE, "counts of a trial");
    must_be(htm_chosen(0, counts, HTM_TRIAL_COUNTS, ranges, HTM_RANGES_LENGTH, more, HTM_RANGES_LENGTH, part, HTM_PART_LENGTH), 0, "a part");
    must_be(htm_chosen(0, counts, HTM_TRIAL_COUNTS, ranges, HTM_RANGES_LENGTH, more, HTM_RANGES_LENGTH, part, HTM_PART_LENGTH - 1), -HTM_SPACE, "a shorter part");
}

/* ---- null pointers, one list at a time and all at once. The file and the index are those that lengths left. */

static void null_trixels(void)
{
    must_be(htm_lookup_line(NULL, 0, 1), -HTM_LINE, "a line of no bytes is malformed");
    must_be(htm_name(8, NULL, 0), -HTM_SPACE, "no room for a name");
    must_be(htm_name(0, NULL, 0), -HTM_NAME, "no room for no name");
    must(htm_identifier(NULL, 0) == 0, "no bytes are no name");
    must_be(htm_corners(8, NULL, 0), -HTM_SPACE, "no room for corners");
    must_be(htm_corners(0, NULL, 0), -HTM_NAME, "no room for no corners");
}

static void null_files(void)
{
    const size_t n = HTM_FILE_BYTES;
    must_be(htm_read(NULL, 0, NULL, 0, NULL, 0), -HTM_TORN, "no file has no rows");
    must_be(htm_read(NULL, 0, rows, HTM_ROWS_LENGTH, header, HTM_HEADER_LENGTH), -HTM_TORN, "no file has no rows, with room");
    must_be(htm_read(file, n, NULL, 0, header, HTM_HEADER_LENGTH), -HTM_SPACE, "no room for rows");
    must_be(htm_read(file, n, rows, HTM_ROWS_LENGTH, NULL, 0), -HTM_SPACE, "no room for a header");
    must_be(htm_header(NULL, 0, NULL, 0), -HTM_TORN, "no file says nothing");
    must_be(htm_header(NULL, 0, header, HTM_CONTENTS_LENGTH), -HTM_TORN, "no file says nothing, with room");
    must_be(htm_header(file, n, NULL, 0), -HTM_SPACE, "no room for what a file says");
    must_be(htm_write(1, 0, NULL, 0, other, sizeof other), -HTM_ORDER, "no rows");
    must_be(htm_write(1, 0, rows, 5, NULL, 0), -HTM_SPACE, "no room for a file");
    must_be(htm_write(1, 0, NULL, 0, NULL, 0), -HTM_ORDER, "no rows and no room");
    must_be(htm_write_grouped(1, 0, NULL, 0, other, sizeof other), -HTM_ORDER, "no rows for a grouped file");
    must_be(htm_write_grouped(1, 0, rows, 5, NULL, 0), -HTM_SPACE, "no room for a grouped file");
    must_be(htm_write_grouped(1, 0, NULL, 0, NULL, 0), -HTM_ORDER, "no rows and no room for a grouped file");
    must_be(htm_to_grouped(NULL, 0, other, sizeof other), -HTM_TORN, "no file to group");
    must_be(htm_to_grouped(file, n, NULL, 0), -HTM_SPACE, "no room to group");
    must_be(htm_to_grouped(NULL, 0, NULL, 0), -HTM_TORN, "no file and no room to group");
    must_be(htm_to_plain(NULL, 0, other, sizeof other), -HTM_TORN, "no file to make plain");
    must_be(htm_to_plain(file, n, NULL, 0), -HTM_SPACE, "no room to make plain");
    must_be(htm_to_plain(NULL, 0, NULL, 0), -HTM_TORN, "no file and no room to make plain");
    must_be(htm_holds(NULL, 0, 0, 0, HTM_K), -HTM_TORN, "no file holds nothing");
    must_be(htm_cover(NULL, 0, NULL, 0, NULL, 0), -HTM_TORN, "no file has no cover");
    must_be(htm_cover(NULL, 0, ranges, HTM_RANGES_LENGTH, counts, HTM_COVER_COUNTS), -HTM_TORN, "no file has no cover, with room");
    must_be(htm_cover(file, n, NULL, 0, counts, HTM_COVER_COUNTS), -HTM_SPACE, "no room for ranges");
    must_be(htm_cover(file, n, ranges, HTM_RANGES_LENGTH, NULL, 0), -HTM_SPACE, "no room for counts");
}

static void null_index(void)
{
    must_be(htm_index_begin(NULL, 0), -HTM_SPACE, "no index begins");
    must_be(htm_add(NULL, 0, 0, 1, 0, 0, HTM_K), -HTM_SPACE, "no index to add to");
    must_be(htm_remove(NULL, 0, 0, 1), -HTM_SPACE, "no index to remove from");
    must_be(htm_index_count(NULL, 0), -HTM_SPACE, "no index has no count");
    must_be(htm_index_entry(NULL, 0, 0, NULL, 0), -HTM_SPACE, "no index has no entry");
    must_be(htm_index_entry(list, HTM_INDEX_LENGTH, 0, NULL, 0), -HTM_SPACE, "no room for an entry");
    must_be(htm_index_entry(list, HTM_INDEX_LENGTH, HTM_NUMBERS_LENGTH, NULL, 0), 0, "no room is needed where there is no entry");
}

/* The lists of htm_frames and of htm_trial, bit by bit: which of them are null. */
static void null_searches(void)
{
    for (int null = 1; null < 32; null++) {
        const bool no_index = null & 1, no_file = null & 2, no_first = null & 4, no_second = null & 8, no_counts = null & 16;
        const int64_t wanted = no_file ? -HTM_TORN : -HTM_SPACE, *l = no_index ? NULL : list;
        const size_t index_length = no_index ? 0 : HTM_INDEX_LENGTH, bytes = no_file ? 0 : HTM_FILE_BYTES, first = no_first ? 0 : HTM_RANGES_LENGTH;
        const size_t second = no_second ? 0 : HTM_RANGES_LENGTH, owned = no_second ? 0 : HTM_NUMBERS_LENGTH;
        const uint8_t *f = no_file ? NULL : file;
        uint64_t *a = no_first ? NULL : ranges, *b = no_second ? NULL : more, *c = no_counts ? NULL : counts;
        must_be(htm_frames(l, index_length, 1, f, bytes, a, first, no_second ? NULL : numbers, owned, c, no_counts ? 0 : HTM_FRAME_COUNTS), wanted,
                "a list of frames is null");
        must_be(htm_trial(l, index_length, 1, f, bytes, 1, 1, 1, 2, a, first, b, second, c, no_counts ? 0 : HTM_TRIAL_COUNTS), wanted,
                "a list of a trial is null");
    }
}

static void null_parts(void)
{
    const size_t n = HTM_RANGES_LENGTH;
    must_be(htm_chosen(0, NULL, 0, ranges, n, more, n, part, HTM_PART_LENGTH), -HTM_SPACE, "no counts tell no part");
    must_be(htm_chosen(0, counts, HTM_TRIAL_COUNTS, ranges, n, more, n, NULL, 0), -HTM_SPACE, "no room for a part");
    must_be(htm_chosen(0, NULL, 0, NULL, 0, NULL, 0, NULL, 0), -HTM_SPACE, "no list at all");
    must_be(htm_chosen(0, counts, HTM_TRIAL_COUNTS, NULL, 0, NULL, 0, part, HTM_PART_LENGTH), 0, "no buffers have the empty part");
    must(part[0] == counts[HTM_TRIAL_COUNTS - 1] && part[1] == 0, "the empty part of no buffer");
    must_be(htm_chosen(-HTM_SPACE, counts, HTM_TRIAL_COUNTS, NULL, 0, NULL, 0, part, HTM_PART_LENGTH), 0, "a refused trial has no part");
    must(part[0] == 0 && part[1] == 0, "the part of a refused trial");
}

int main(void)
{
    version();
    refusals();
    limits();
    lengths();
    printf("header: version %s, 18 refusals, limits, lengths\n", HTM_VERSION);
    null_trixels();
    null_files();
    null_index();
    null_searches();
    null_parts();
    printf("header: null pointers with length 0; %ld questions, %ld wrong\n", asked, wrong);
    return wrong ? 1 : 0;
}
