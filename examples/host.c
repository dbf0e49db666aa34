/* A host in C: looks up pointings, writes a region file, covers it, tests points, keeps an index of two owners, searches it, and tries two settings.
 * It is C99 and C++11. docs/C.md says how it is built. */
#include <inttypes.h>
#include <stdio.h>
#include <stdlib.h>

#include "htm.h"

#define BUDGET 8

/* ---- errors */

/* What a call answered, where that is 0 or more; else its number and word are printed. */
static int64_t report(const char *call, int64_t answer)
{
    static const char *const words[] = {"",      "long", "torn",  "kind", "order", "depth", "budget", "crowd",  "vector", "offset",
                                        "space", "name", "float", "line", "mixed", "twice", "full",   "absent", "owner"};
    if (answer < 0)
        printf("%s: refused %d (%s)\n", call, (int)-answer, answer < -HTM_OWNER ? "unknown" : words[-answer]);
    return answer;
}

/* The same, for a call that this program cannot go on without. */
static size_t need(const char *call, int64_t answer)
{
    if (report(call, answer) < 0)
        exit(1);
    return (size_t)answer;
}

/* ---- frames: pointings by number */

static const struct frame {
    uint32_t number;
    int32_t x, y, z;
} frames[] = {
    {101, 605396, 605396, 605396}, {102, 565761, 643371, 604566}, {103, 539850, 666516, 603183},
    {104, 531543, 673674, 602609}, {105, 315293, 822478, 568886}, {106, 1, 2, 3},
};
#define FRAMES (sizeof frames / sizeof frames[0])

static void look_up(void)
{
    for (size_t i = 0; i < FRAMES; i++) {
        uint8_t name[HTM_NAME_BYTES];
        uint64_t id = lookup(frames[i].x, frames[i].y, frames[i].z, HTM_MAX_DEPTH);
        if (id == 0) {
            printf("frame %" PRIu32 ": no pointing\n", frames[i].number);
            continue;
        }
        size_t length = need("htm_name", htm_name(id, name, sizeof name));
        printf("frame %" PRIu32 ": trixel %" PRIu64 ", %.*s\n", frames[i].number, id, (int)length, (const char *)name);
    }
}

/* ---- a region: a cap of 5 degrees, its offset HTM_K times the cosine */

static uint8_t file[HTM_FILE_BYTES];
static size_t file_bytes;

static void write_region(void)
{
    static const int32_t rows[] = {0, 605396, 605396, 605396, 1044586}; /* convex, direction x, y, z, offset */
    file_bytes = need("htm_write", htm_write(HTM_MAX_DEPTH, BUDGET, rows, 5, file, sizeof file));
    printf("region file of %d bytes\n", (int)file_bytes);
}

/* A database would search its index for each range instead. */
static int in_ranges(uint64_t id, const uint64_t *pairs, uint64_t count)
{
    for (uint64_t i = 0; i < count; i++)
        if (pairs[2 * i] <= id && id <= pairs[2 * i + 1])
            return 1;
    return 0;
}

static void cover_region(void)
{
    uint64_t ranges[4 * BUDGET], counts[HTM_COVER_COUNTS];
    const uint64_t *outer = ranges, *inner = ranges + 2 * BUDGET;
    need("htm_cover", htm_cover(file, file_bytes, ranges, 4 * BUDGET, counts, HTM_COVER_COUNTS));
    printf("outer ranges %" PRIu64 ", inner ranges %" PRIu64 ", trixels seen %" PRIu64 "\n", counts[0], counts[1], counts[2]);
    for (size_t i = 0; i < FRAMES; i++) {
        const struct frame *f = &frames[i];
        uint64_t id = lookup(f->x, f->y, f->z, HTM_MAX_DEPTH);
        if (!in_ranges(id, outer, counts[0]))
            continue;
        if (in_ranges(id, inner, counts[1]))
            printf("frame %" PRIu32 ": in an inner range\n", f->number);
        else
            printf("frame %" PRIu32 ": in an outer range only, %s\n", f->number,
                   need("htm_holds", htm_holds(file, file_bytes, f->x, f->y, f->z)) ? "held" : "not held");
    }
}

/* ---- an index: every frame is owner 0's, every other one owner 1's too */

static int64_t exposures[HTM_INDEX_LENGTH]; /* zeros are an empty index */

static void fill_index(void)
{
    for (size_t i = 0; i < FRAMES; i++)
        for (uint32_t owner = 0; owner <= (i + 1) % 2; owner++)
            report("htm_add", htm_add(exposures, HTM_INDEX_LENGTH, owner, frames[i].number, frames[i].x, frames[i].y, frames[i].z));
    report("htm_add", htm_add(exposures, HTM_INDEX_LENGTH, 0, 101, HTM_K, 0, 0));
    need("htm_remove", htm_remove(exposures, HTM_INDEX_LENGTH, 1, 105));
    report("htm_remove", htm_remove(exposures, HTM_INDEX_LENGTH, 1, 102));
    printf("index of %d exposures\n", (int)need("htm_index_count", htm_index_count(exposures, HTM_INDEX_LENGTH)));
}

static void search_index(uint32_t owner)
{
    static uint64_t ranges[HTM_RANGES_LENGTH];
    static uint32_t numbers[HTM_NUMBERS_LENGTH];
    uint64_t counts[HTM_FRAME_COUNTS];
    need("htm_frames", htm_frames(exposures, HTM_INDEX_LENGTH, owner, file, file_bytes, ranges, HTM_RANGES_LENGTH, numbers, HTM_NUMBERS_LENGTH,
                                  counts, HTM_FRAME_COUNTS));
    printf("owner %" PRIu32 ": frames %" PRIu64 ", tests %" PRIu64 ", numbers", owner, counts[0], counts[1]);
    for (uint64_t i = 0; i < counts[0]; i++)
        printf(" %" PRIu32, numbers[i]);
    printf("\n");
}

/* ---- is depth 6 or depth 9 better, with 4 ranges? */

static void try_settings(void)
{
    uint64_t first[4 * 4], second[4 * 4], counts[HTM_TRIAL_COUNTS], part[HTM_PART_LENGTH];
    int64_t status = htm_trial(exposures, HTM_INDEX_LENGTH, 0, file, file_bytes, 6, 4, 9, 4, first, 4 * 4, second, 4 * 4, counts, HTM_TRIAL_COUNTS);
    need("htm_trial", status);
    for (int k = 0; k < 10; k += 5)
        printf("setting %d: unchecked %" PRIu64 ", held %" PRIu64 ", discarded %" PRIu64 ", outer ranges %" PRIu64 "\n", 1 + k / 5, counts[k],
               counts[k + 1], counts[k + 2], counts[k + 3]);
    need("htm_chosen", htm_chosen(status, counts, HTM_TRIAL_COUNTS, first, 4 * 4, second, 4 * 4, part, HTM_PART_LENGTH));
    const uint64_t *chosen = part[0] == 1 ? first : second; /* the outer list itself, not a copy */
    printf("setting %" PRIu64 " is chosen:", part[0]);
    for (uint64_t i = 0; i < part[1]; i += 2)
        printf(" %" PRIu64 "-%" PRIu64, chosen[i], chosen[i + 1]);
    printf("\n");
}

int main(void)
{
    look_up();
    write_region();
    cover_region();
    fill_index();
    search_index(0);
    search_index(1);
    try_settings();
    return 0;
}
