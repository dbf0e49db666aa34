/* How much stack each call takes: it runs on a stack of its own, which is painted before, and what has another colour afterwards was used, less what a call of
 * nothing uses. The regions go to the greatest depth: one halfspace, the most in one convex, and the most in all. All calls are made once before, since the
 * first use of memcpy and memset may take more. The pointings are one in no corner, where all digits of a jump are sure, and corners of trixels, where one is not.
 *
 *   stack     one line a call; exit status 1 where one takes more than the header says */
#define _XOPEN_SOURCE 700
#include <math.h>
#include <stdbool.h>
#include <stdio.h>
#include <stdlib.h>
#include <string.h>
#include <ucontext.h>

#include "htm.h"

#define STACK (1 << 20)
#define COLOUR 0xa5
#define CONVEXES 64
#define HALFSPACES 100 /* of one convex */
#define ALL 512        /* of all convexes */

static uint8_t stack[STACK];
static ucontext_t here, there;

static size_t used_by(void (*call)(void))
{
    size_t free = 0;
    memset(stack, COLOUR, STACK);
    if (getcontext(&there) != 0)
        exit(1);
    there.uc_stack.ss_sp = stack;
    there.uc_stack.ss_size = STACK;
    there.uc_link = &here;
    makecontext(&there, call, 0);
    if (swapcontext(&here, &there) != 0)
        exit(1);
    while (free < STACK && stack[free] == COLOUR)
        free++;
    return STACK - free;
}

/* ---- the regions: circles around small caps, one in each convex */

struct region {
    uint8_t file[HTM_FILE_BYTES];
    size_t bytes;
    int32_t rows[HTM_ROWS_LENGTH];
    size_t length;
};

static struct region one, ring, rings, *region;

static void write_rings(struct region *r, int convexes, int halfspaces, double radius)
{
    const double turn = 6.28318530717958647692;
    int32_t *row = r->rows;
    for (int c = 0; c < convexes; c++)
        for (int i = 0; i < halfspaces; i++, row += 5) {
            double a = turn * c / convexes, t = turn * i / halfspaces, s = sin(radius), u = cos(radius) * cos(t);
            row[0] = c;
            row[1] = (int32_t)lround(HTM_K * (s * cos(a) - u * sin(a)));
            row[2] = (int32_t)lround(HTM_K * (s * sin(a) + u * cos(a)));
            row[3] = (int32_t)lround(HTM_K * (cos(radius) * sin(t)));
            row[4] = 0;
        }
    r->length = (size_t)(row - r->rows);
    int64_t bytes = htm_write(HTM_MAX_DEPTH, HTM_MAX_BUDGET, r->rows, r->length, r->file, sizeof r->file);
    if (bytes < 0) {
        printf("stack: a region is refused, %d\n", (int)-bytes);
        exit(1);
    }
    r->bytes = (size_t)bytes;
}

/* ---- the calls */

static uint64_t ranges[HTM_RANGES_LENGTH], more[HTM_RANGES_LENGTH], counts[HTM_TRIAL_COUNTS], part[HTM_PART_LENGTH], header[HTM_CONTENTS_LENGTH];
static int64_t indexed[HTM_INDEX_LENGTH], entry[HTM_ENTRY_LENGTH];
static uint32_t numbers[HTM_NUMBERS_LENGTH];
static int32_t rows[HTM_ROWS_LENGTH], corners[HTM_CORNERS_LENGTH];
static uint8_t file[HTM_FILE_BYTES], again[HTM_FILE_BYTES], name[HTM_NAME_BYTES];
static int64_t answer;

static int32_t pointing[3];
static char line[64];

/* the pointing, and its line: rounded away from zero, so that truncation gives the same pointing */
static void point_at(const int32_t at[3])
{
    double d[3];
    for (int i = 0; i < 3; i++) {
        pointing[i] = at[i];
        d[i] = copysign(ceil(fabs(at[i] * 1e7 / HTM_K)) / 1e7, at[i]);
    }
    snprintf(line, sizeof line, "%.7f %.7f %.7f\n", d[0], d[1], d[2]);
}

static void nothing(void) { answer = 0; }
static void do_lookup(void) { answer = (int64_t)lookup(pointing[0], pointing[1], pointing[2], HTM_MAX_DEPTH); }
static void do_htm_lookup(void) { answer = htm_lookup(pointing[0], pointing[1], pointing[2], HTM_MAX_DEPTH); }
static void do_f64(void) { answer = htm_lookup_f64(pointing[0] / (double)HTM_K, pointing[1] / (double)HTM_K, pointing[2] / (double)HTM_K, HTM_MAX_DEPTH); }
static void do_f32(void) { answer = htm_lookup_f32(pointing[0] / (float)HTM_K, pointing[1] / (float)HTM_K, pointing[2] / (float)HTM_K, HTM_MAX_DEPTH); }
static void do_line(void) { answer = htm_lookup_line((const uint8_t *)line, strlen(line), HTM_MAX_DEPTH); }
static void do_name(void) { answer = htm_name((uint64_t)1 << 63, name, sizeof name); }
static void do_identifier(void) { answer = (int64_t)(htm_identifier(name, sizeof name) >> 1); }
static void do_corners(void) { answer = htm_corners(67108863, corners, HTM_CORNERS_LENGTH); }
static void do_read(void) { answer = htm_read(region->file, region->bytes, rows, HTM_ROWS_LENGTH, header, HTM_HEADER_LENGTH); }
static void do_header(void) { answer = htm_header(region->file, region->bytes, header, HTM_CONTENTS_LENGTH); }
static void do_write(void) { answer = htm_write(HTM_MAX_DEPTH, 0, region->rows, region->length, file, sizeof file); }
static void do_grouped(void) { answer = htm_write_grouped(HTM_MAX_DEPTH, 0, region->rows, region->length, file, sizeof file); }
static void do_to_grouped(void) { answer = htm_to_grouped(region->file, region->bytes, file, sizeof file); }
static void do_to_plain(void) { answer = htm_to_plain(file, (size_t)answer, again, sizeof again); }
static void do_holds(void) { answer = htm_holds(region->file, region->bytes, 377487, 503316, 838861); }
static void do_cover(void) { answer = htm_cover(region->file, region->bytes, ranges, HTM_RANGES_LENGTH, counts, HTM_COVER_COUNTS); }
static void do_begin(void) { answer = htm_index_begin(indexed, HTM_INDEX_LENGTH); }
static void do_add(void) { answer = htm_add(indexed, HTM_INDEX_LENGTH, 0, 7, pointing[0], pointing[1], pointing[2]); }
static void do_remove(void) { answer = htm_remove(indexed, HTM_INDEX_LENGTH, 0, 7); }
static void do_count(void) { answer = htm_index_count(indexed, HTM_INDEX_LENGTH); }
static void do_entry(void) { answer = htm_index_entry(indexed, HTM_INDEX_LENGTH, 0, entry, HTM_ENTRY_LENGTH); }
static void do_frames(void)
{
    answer = htm_frames(indexed, HTM_INDEX_LENGTH, 0, region->file, region->bytes, ranges, HTM_RANGES_LENGTH, numbers, HTM_NUMBERS_LENGTH, counts,
                        HTM_FRAME_COUNTS);
}
static void do_trial(void)
{
    answer = htm_trial(indexed, HTM_INDEX_LENGTH, 0, region->file, region->bytes, HTM_MAX_DEPTH, HTM_MAX_BUDGET, HTM_MAX_DEPTH, 1, ranges,
                       HTM_RANGES_LENGTH, more, HTM_RANGES_LENGTH, counts, HTM_TRIAL_COUNTS);
}
static void do_chosen(void)
{
    answer = htm_chosen(answer, counts, HTM_TRIAL_COUNTS, ranges, HTM_RANGES_LENGTH, more, HTM_RANGES_LENGTH, part, HTM_PART_LENGTH);
}

/* Each call, and how many bytes the header says that it takes at most. */
static const struct {
    const char *name;
    void (*call)(void);
    size_t most;
} calls[] = {
    {"lookup", do_lookup, 4000},
    {"htm_lookup", do_htm_lookup, 4000},
    {"htm_lookup_f64", do_f64, 4000},
    {"htm_lookup_f32", do_f32, 4000},
    {"htm_lookup_line", do_line, 4000},
    {"htm_name", do_name, 1000},
    {"htm_identifier", do_identifier, 1000},
    {"htm_corners", do_corners, 4000},
    {"htm_read", do_read, 11000},
    {"htm_header", do_header, 11000},
    {"htm_write", do_write, 1000},
    {"htm_write_grouped", do_grouped, 1000},
    {"htm_to_grouped", do_to_grouped, 11000},
    {"htm_to_plain", do_to_plain, 11000},
    {"htm_holds", do_holds, 11000},
    {"htm_cover", do_cover, 86000},
    {"htm_index_begin", do_begin, 1000},
    {"htm_add", do_add, 4000},
    {"htm_index_count", do_count, 1000},
    {"htm_index_entry", do_entry, 1000},
    {"htm_frames", do_frames, 86000},
    {"htm_trial", do_trial, 90000},
    {"htm_chosen", do_chosen, 1000},
    {"htm_remove", do_remove, 1000},
};
#define CALLS (sizeof calls / sizeof calls[0])

/* Whether no call is refused. used becomes the most that each call took so far. */
static bool make_calls(size_t used[CALLS])
{
    const size_t least = used_by(nothing);
    bool good = true;
    for (size_t i = 0; i < CALLS; i++) {
        size_t bytes = used_by(calls[i].call) - least;
        used[i] = bytes > used[i] ? bytes : used[i];
        if (answer < 0)
            printf("%s: refused %d\n", calls[i].name, (int)-answer);
        good = good && answer >= 0;
    }
    return good;
}

int main(void)
{
    static size_t used[CALLS], before[CALLS];
    write_rings(&one, 1, 1, 0.5);
    write_rings(&ring, 1, HALFSPACES, 0.1);
    write_rings(&rings, CONVEXES, ALL / CONVEXES, 0.05);
    struct region *const regions[] = {&one, &ring, &rings};
    region = &one;
    point_at((const int32_t[]){377487, 503316, 838861});
    bool good = make_calls(before);
    for (size_t k = 0; k < sizeof regions / sizeof regions[0]; k++) {
        region = regions[k];
        good = make_calls(used) && good;
    }
    region = &one;
    for (int depth = 4; depth <= HTM_MAX_DEPTH; depth++) {
        good = htm_corners(((uint64_t)15 << 2 * (depth - 1)) + 3, corners, HTM_CORNERS_LENGTH) == 0 && good;
        point_at(corners);
        good = make_calls(used) && good;
    }
    for (size_t i = 0; i < CALLS; i++) {
        printf("%-17s %6zu bytes of stack, at most %5zu by the header\n", calls[i].name, used[i], calls[i].most);
        good = good && used[i] <= calls[i].most;
    }
    return good ? 0 : 1;
}
