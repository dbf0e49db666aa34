/* The lookups of a mount's report, beside lookup at the components that C's own product and cast give.
 *
 *   reports     one line a width; exit status 1 on any difference */
#include <math.h>
#include <stdbool.h>
#include <stdio.h>

#include "htm.h"

#define K ((double)HTM_K)
#define REPORTS 200000

enum { SINGLE, DOUBLE };

static struct tally {
    long given, refused, differ;
} tally[2];

static uint64_t state = 88172645463325252u;

static uint64_t next(void)
{
    state ^= state << 13;
    state ^= state >> 7;
    state ^= state << 17;
    return state;
}

/* From -1 to 1. */
static double some(void)
{
    return (double)(int64_t)next() / 9223372036854775808.0;
}

static bool usable(double x)
{
    return -1 <= x && x <= 1;
}

/* Depth, then float, then vector. An f32 is taken as the f64 of the same value. */
static int64_t wanted(double x, double y, double z, uint32_t depth)
{
    if (depth < 1 || depth > HTM_MAX_DEPTH)
        return -HTM_DEPTH;
    if (!usable(x) || !usable(y) || !usable(z))
        return -HTM_FLOAT;
    uint64_t id = lookup((int32_t)(x * K), (int32_t)(y * K), (int32_t)(z * K), depth);
    return id ? (int64_t)id : -HTM_VECTOR;
}

static void compare(struct tally *t, int64_t got, int64_t want)
{
    if (got != want)
        t->differ++;
    else if (got > 0)
        t->given++;
    else
        t->refused++;
}

static void both(double x, double y, double z, uint32_t depth)
{
    float a = (float)x, b = (float)y, c = (float)z;
    compare(&tally[SINGLE], htm_lookup_f32(a, b, c, depth), wanted(a, b, c, depth));
    compare(&tally[DOUBLE], htm_lookup_f64(x, y, z, depth), wanted(x, y, z, depth));
}

int main(void)
{
    static const double special[] = {0.0,      -0.0,      1.0,  -1.0, 1.0000001192092896, -1.0000000000000002, 0x1p-20,
                                     -0x1p-149, 0x1p-1074, 2.0, INFINITY, -INFINITY,      NAN};
    const int n = sizeof special / sizeof *special;

    for (int i = 0; i < n; i++)
        for (int j = 0; j < n; j++)
            for (int k = 0; k < n; k++)
                for (uint32_t depth = 0; depth <= HTM_MAX_DEPTH + 1; depth++)
                    both(special[i], special[j], special[k], depth);
    for (int i = 0; i < REPORTS; i++) {
        double x = some(), y = some(), z = some(), r = sqrt(x * x + y * y + z * z);
        both(x / r, y / r, z / r, 1 + (uint32_t)(next() % HTM_MAX_DEPTH));
    }
    for (int i = SINGLE; i <= DOUBLE; i++)
        printf("reports f%d: %ld identifiers and %ld refusals equal, %ld differ\n", i == DOUBLE ? 64 : 32, tally[i].given, tally[i].refused,
               tally[i].differ);
    return tally[SINGLE].differ || tally[DOUBLE].differ;
}
