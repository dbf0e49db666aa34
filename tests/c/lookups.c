/* Lookups by the archive, which jump from the table of depth 3, beside a descent from the roots by the rule alone: midpoints by Unit, cuts
 * by Scale, truncating divisions, one level after the other.
 *
 * A million pointings in all directions, and pointings on edges and corners of trixels of every depth and up to 4 units beside them, where
 * digits of a jump are not sure. The identifiers at depth 12 are compared, and one shallower depth for each pointing.
 *
 *   lookups     one line; exit status 1 on any difference */
#include <inttypes.h>
#include <math.h>
#include <stdio.h>
#include <stdlib.h>

#include "htm.h"

#define K 1048576
#define SCATTERED 1000000 /* pointings in all directions */
#define TRIXELS 4000      /* for each depth, with pointings on their edges and corners */
#define BESIDE 4          /* units */

struct vector {
    int64_t x, y, z;
};

struct trixel {
    struct vector v[3];
};

static struct vector sum(struct vector a, struct vector b)
{
    return (struct vector){a.x + b.x, a.y + b.y, a.z + b.z};
}

static int64_t dot(struct vector a, struct vector b)
{
    return a.x * b.x + a.y * b.y + a.z * b.z;
}

static struct vector cross(struct vector a, struct vector b)
{
    return (struct vector){a.y * b.z - a.z * b.y, a.z * b.x - a.x * b.z, a.x * b.y - a.y * b.x};
}

static struct vector divided(struct vector s, int64_t n)
{
    return (struct vector){K * s.x / n, K * s.y / n, K * s.z / n};
}

static struct vector unit(struct vector s)
{
    int64_t q = dot(s, s), n = (int64_t)sqrt((double)q);
    while (n * n > q)
        n--;
    while ((n + 1) * (n + 1) <= q)
        n++;
    return divided(s, n);
}

static int64_t size(int64_t a)
{
    return a < 0 ? -a : a;
}

static struct vector scale(struct vector c)
{
    int64_t m = size(c.x);
    if (size(c.y) > m)
        m = size(c.y);
    if (size(c.z) > m)
        m = size(c.z);
    return divided(c, m);
}

static struct trixel child(struct trixel t, const struct vector w[3], int k)
{
    if (k == 0)
        return (struct trixel){{t.v[0], w[2], w[1]}};
    if (k == 1)
        return (struct trixel){{t.v[1], w[0], w[2]}};
    if (k == 2)
        return (struct trixel){{t.v[2], w[1], w[0]}};
    return (struct trixel){{w[0], w[1], w[2]}};
}

static void midpoints(struct trixel t, struct vector w[3])
{
    w[0] = unit(sum(t.v[1], t.v[2]));
    w[1] = unit(sum(t.v[0], t.v[2]));
    w[2] = unit(sum(t.v[0], t.v[1]));
}

/* S0 to S3 and N0 to N3 are 0 to 7. */
static int root_of(struct vector p)
{
    if (p.z >= 0)
        return p.y >= 0 ? (p.x >= 0 ? 7 : 6) : (p.x >= 0 ? 4 : 5);
    return p.y >= 0 ? (p.x >= 0 ? 0 : 1) : (p.x >= 0 ? 3 : 2);
}

static struct trixel root(int r)
{
    static const struct vector v[6] = {{0, 0, K}, {K, 0, 0}, {0, K, 0}, {-K, 0, 0}, {0, -K, 0}, {0, 0, -K}};
    static const int corners[8][3] = {{1, 5, 2}, {2, 5, 3}, {3, 5, 4}, {4, 5, 1}, {1, 0, 4}, {4, 0, 3}, {3, 0, 2}, {2, 0, 1}};
    return (struct trixel){{v[corners[r][0]], v[corners[r][1]], v[corners[r][2]]}};
}

static int is_pointing(struct vector p)
{
    const int64_t least = (int64_t)(K - 2) * (K - 2), most = (int64_t)(K + 2) * (K + 2);
    return llabs(p.x) <= K && llabs(p.y) <= K && llabs(p.z) <= K && least <= dot(p, p) && dot(p, p) <= most;
}

static int64_t by_rule(struct vector p, int depth)
{
    int r = root_of(p);
    struct trixel t = root(r);
    int64_t id = 8 + r;
    if (!is_pointing(p))
        return -HTM_VECTOR;
    for (int d = 1; d < depth; d++) {
        struct vector w[3];
        int k;
        midpoints(t, w);
        for (k = 0; k < 3; k++) {
            static const int pair[3][2] = {{2, 1}, {0, 2}, {1, 0}};
            if (dot(scale(cross(w[pair[k][0]], w[pair[k][1]])), p) >= 0)
                break;
        }
        t = child(t, w, k);
        id = 4 * id + k;
    }
    return id;
}

static uint64_t state = 88172645463325252u;

static uint64_t drawn(void)
{
    state ^= state << 13;
    state ^= state >> 7;
    state ^= state << 17;
    return state;
}

static double between(double a, double b)
{
    return a + (b - a) * ((double)(drawn() >> 11) / 9007199254740992.0);
}

static struct vector direction(void)
{
    double x, y, z, s;
    do {
        x = between(-1, 1);
        y = between(-1, 1);
        z = between(-1, 1);
        s = x * x + y * y + z * z;
    } while (s > 1 || s < 0.01);
    s = K / sqrt(s);
    return (struct vector){llround(x * s), llround(y * s), llround(z * s)};
}

static long compared, refused, differ;

static void compare(struct vector p)
{
    int shallow = 1 + (int)(compared % 12);
    int64_t deep = by_rule(p, 12), above = by_rule(p, shallow);
    int64_t id = htm_lookup((int32_t)p.x, (int32_t)p.y, (int32_t)p.z, 12);
    int64_t short_id = htm_lookup((int32_t)p.x, (int32_t)p.y, (int32_t)p.z, (uint32_t)shallow);
    if (deep < 0)
        refused++;
    else
        compared++;
    if (id != deep || short_id != above)
        if (differ++ < 5)
            printf("lookups: %" PRId64 " %" PRId64 " %" PRId64 " gives %" PRId64 " and at depth %d %" PRId64 ", by the rule %" PRId64 " and %" PRId64 "\n",
                   p.x, p.y, p.z, id, shallow, short_id, deep, above);
}

/* a point of the edge from a to b, or a itself, and what is beside it */
static void beside(struct vector a, struct vector b)
{
    double t = drawn() % 4 ? between(0, 1) : 0;
    double x = a.x + t * (b.x - a.x), y = a.y + t * (b.y - a.y), z = a.z + t * (b.z - a.z), s = K / sqrt(x * x + y * y + z * z);
    struct vector p = {llround(x * s), llround(y * s), llround(z * s)};
    compare(p);
    for (int n = 0; n < 3; n++) {
        int64_t d[3];
        for (int i = 0; i < 3; i++)
            d[i] = (int64_t)(drawn() % (2 * BESIDE + 1)) - BESIDE;
        compare(sum(p, (struct vector){d[0], d[1], d[2]}));
    }
}

int main(void)
{
    long scattered, near;
    for (long i = 0; i < SCATTERED; i++)
        compare(direction());
    scattered = compared;
    for (int depth = 1; depth <= 12; depth++)
        for (int i = 0; i < TRIXELS; i++) {
            struct trixel t = root((int)(drawn() % 8));
            for (int d = 1; d < depth; d++) {
                struct vector w[3];
                midpoints(t, w);
                t = child(t, w, (int)(drawn() % 4));
            }
            for (int k = 0; k < 3; k++)
                beside(t.v[k], t.v[(k + 1) % 3]);
        }
    near = compared - scattered;
    printf("lookups: %ld in all directions and %ld beside edges and corners (%ld more are no pointings and are refused) beside the rule, %ld differ\n", scattered, near, refused, differ);
    return differ || scattered < SCATTERED / 2 || near < TRIXELS;
}
