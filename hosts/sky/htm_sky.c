/* Degrees to pointings, cones and polygons, and covers to pieces. hosts/sky/README.md has the argument for each margin, and figures. */
#include "htm_sky.h"

#include <math.h>

#define K HTM_K
#define DEGREE (3.14159265358979323846 / 180) /* in radians */
#define ROW 5             /* numbers a halfspace: convex, x, y, z, offset */
#define MOST_CORNERS 100  /* halfspaces of one convex */

/* A rounded direction is at most sqrt(3)/2 units from K times the true one. So n.p is within (sqrt(3) + 0.75/K) K, that is 1.732052 K, of
 * K^2 times the true product, for every rounded n and p. */
#define HALFSPACE_MARGIN 1.733 /* taken from the offset of a halfspace around a centre */
#define CIRCLE_MARGIN 0.74     /* added to the radius that circles touch, in units of 1/K, beside .. */
#define CIRCLE_OFFSET (-1)     /* .. the offset of a circle, 1/K more */
#define SIDE_OFFSET (-2)       /* the offset of a polygon's side */

#define CIRCLES 32             /* circles around a small cone */
#define CIRCLES_BELOW 2.0      /* degrees: from this radius on one halfspace alone holds hardly more beyond the cone */
#define GUARD_BELOW 1.0        /* degrees: a polygon that reaches less far has a halfspace around it before its sides */

#define CLOSE 1e-6 /* the sine of the least angle between two corners in a row, and of the least from opposite */
#define DENT 1e-7  /* how far a corner may be on the outer side of a side, in radians */

/* ---- directions */

struct direction {
    double x, y, z;
};

static struct direction toward(double ra, double dec)
{
    double a = ra * DEGREE, d = dec * DEGREE;
    return (struct direction){cos(d) * cos(a), cos(d) * sin(a), sin(d)};
}

static double dot(struct direction a, struct direction b)
{
    return a.x * b.x + a.y * b.y + a.z * b.z;
}

static struct direction cross(struct direction a, struct direction b)
{
    return (struct direction){a.y * b.z - a.z * b.y, a.z * b.x - a.x * b.z, a.x * b.y - a.y * b.x};
}

/* s a + t b */
static struct direction mix(double s, struct direction a, double t, struct direction b)
{
    return (struct direction){s * a.x + t * b.x, s * a.y + t * b.y, s * a.z + t * b.z};
}

static void round_to(struct direction u, int32_t p[3])
{
    p[0] = (int32_t)lround(K * u.x);
    p[1] = (int32_t)lround(K * u.y);
    p[2] = (int32_t)lround(K * u.z);
}

/* A NaN fails every comparison. */
static int64_t check_degrees(double ra, double dec)
{
    if (!(ra >= -360 && ra <= 360))
        return SKY_RA;
    return dec >= -90 && dec <= 90 ? 0 : SKY_DEC;
}

int64_t sky_pointing(double ra, double dec, int32_t p[3])
{
    int64_t bad = check_degrees(ra, dec);
    if (bad == 0)
        round_to(toward(ra, dec), p);
    return bad;
}

/* By htm_lookup, since beside shared objects a host's own function of the name lookup would be called in the place of that one. */
int64_t sky_lookup(double ra, double dec, uint32_t depth)
{
    int32_t p[3];
    int64_t bad = sky_pointing(ra, dec, p);
    return bad ? bad : htm_lookup(p[0], p[1], p[2], depth);
}

/* ---- regions */

static void put_row(int32_t *row, int32_t convex, struct direction n, double offset)
{
    row[0] = convex;
    round_to(n, row + 1);
    row[4] = (int32_t)offset;
}

/* The depth for a region by how many radians it reaches from its middle: 12 for up to 2 degrees within a budget of 64, and one less for each
 * doubling of the reach or halving of the budget. One more would take twice the time and hardly leave less to test. */
static uint32_t choose_depth(double reach, uint32_t budget)
{
    uint32_t depth = HTM_MAX_DEPTH;
    for (double r = 2 * DEGREE * (budget ? budget : HTM_DEFAULT_BUDGET) / 64; reach > r && depth > 1; r *= 2)
        depth--;
    return depth;
}

static int64_t write_region(uint32_t depth, double reach, uint32_t budget, const int32_t *rows, size_t count, uint8_t *file, size_t bytes)
{
    uint32_t d = depth == SKY_CHOOSE_DEPTH ? choose_depth(reach, budget) : depth;
    return htm_write(d, budget, rows, ROW * count, file, bytes);
}

/* The halfspace that holds all directions within r radians of the centre. Its offset may be less than -K. */
static double halfspace_offset(double r)
{
    return floor(K * cos(r) - HALFSPACE_MARGIN);
}

/* A halfspace around the cone, and circles that touch the cone of the padded radius: a direction u in it has m.u >= 0 for each of their
 * directions m. The halfspace holds more than the circles do, but one look at it leaves out most of the sky. */
static size_t circle_rows(double ra, double dec, double r, int32_t *rows)
{
    double a = ra * DEGREE, padded = r + CIRCLE_MARGIN / K;
    struct direction centre = toward(ra, dec), east = {-sin(a), cos(a), 0}, north = cross(centre, east);
    put_row(rows, 0, centre, halfspace_offset(r));
    for (int i = 1; i <= CIRCLES; i++) {
        double t = 360.0 / CIRCLES * i * DEGREE;
        struct direction side = mix(cos(t), east, sin(t), north);
        put_row(rows + ROW * i, 0, mix(sin(padded), centre, cos(padded), side), CIRCLE_OFFSET);
    }
    return CIRCLES + 1;
}

/* One halfspace; or the whole sky, two that overlap, where its offset would be less than -K. */
static size_t halfspace_rows(double ra, double dec, double r, int32_t *rows)
{
    if (halfspace_offset(r) >= -K) {
        put_row(rows, 0, toward(ra, dec), halfspace_offset(r));
        return 1;
    }
    put_row(rows, 0, (struct direction){0, 0, 1}, -K / 2);
    put_row(rows + ROW, 1, (struct direction){0, 0, -1}, -K / 2);
    return 2;
}

int64_t sky_cone(double ra, double dec, double radius, uint32_t depth, uint32_t budget, uint8_t *file, size_t bytes)
{
    int32_t rows[ROW * (CIRCLES + 1)];
    int64_t bad = check_degrees(ra, dec);
    if (bad)
        return bad;
    if (!(radius >= 0 && radius <= 180))
        return SKY_RADIUS;
    double r = radius * DEGREE;
    size_t count = radius < CIRCLES_BELOW ? circle_rows(ra, dec, r, rows) : halfspace_rows(ra, dec, r, rows);
    return write_region(depth, r, budget, rows, count, file, bytes);
}

/* ---- polygons */

struct polygon {
    size_t count;
    struct direction corner[MOST_CORNERS], side[MOST_CORNERS]; /* side i goes from corner i to the next; its direction is at right angles to it */
    struct direction middle;
};

static int64_t read_corners(struct polygon *p, const double *degrees, size_t corners)
{
    if (corners < 3)
        return SKY_FEW;
    if (corners > MOST_CORNERS)
        return SKY_MANY;
    p->count = corners;
    for (size_t i = 0; i < corners; i++) {
        int64_t bad = check_degrees(degrees[2 * i], degrees[2 * i + 1]);
        if (bad)
            return bad;
        p->corner[i] = toward(degrees[2 * i], degrees[2 * i + 1]);
    }
    return 0;
}

static int64_t find_sides(struct polygon *p)
{
    for (size_t i = 0; i < p->count; i++) {
        struct direction n = cross(p->corner[i], p->corner[(i + 1) % p->count]);
        double sine = sqrt(dot(n, n));
        if (sine < CLOSE)
            return SKY_CLOSE;
        p->side[i] = mix(1 / sine, n, 0, n);
    }
    return 0;
}

/* The sense in which the corners go around: 1 where every corner is on the left of every side, -1 where on the right; 0 where neither, or both
 * since all corners are on one great circle. */
static int find_sense(const struct polygon *p)
{
    double low = 1, high = -1;
    for (size_t i = 0; i < p->count; i++)
        for (size_t k = 0; k < p->count; k++) {
            double height = dot(p->side[i], p->corner[k]);
            low = fmin(low, height);
            high = fmax(high, height);
        }
    return (low >= -DENT) - (high <= DENT);
}

/* The middle of the corners, which is inside. False where it is not clear. */
static int find_middle(struct polygon *p)
{
    struct direction sum = {0, 0, 0};
    for (size_t i = 0; i < p->count; i++)
        sum = mix(1, sum, 1, p->corner[i]);
    double length = sqrt(dot(sum, sum));
    if (length < CLOSE)
        return 0;
    p->middle = mix(1 / length, sum, 0, sum);
    return 1;
}

/* The corner as seen from the middle, in the plane that touches the sphere there. */
static struct direction seen(const struct polygon *p, size_t i)
{
    struct direction to = mix(1, p->corner[i % p->count], -1, p->middle);
    return mix(1, to, -dot(to, p->middle), p->middle);
}

/* How often the corners go around the middle: a star, or a triangle whose corners are given twice, goes around twice. */
static int turns(const struct polygon *p)
{
    double angle = 0;
    for (size_t i = 0; i < p->count; i++) {
        struct direction a = seen(p, i), b = seen(p, i + 1);
        angle += atan2(dot(p->middle, cross(a, b)), dot(a, b));
    }
    return (int)lround(angle / (360 * DEGREE));
}

/* How far the farthest corner is from the middle, in radians. */
static double reach_of(const struct polygon *p)
{
    double least = 1;
    for (size_t i = 0; i < p->count; i++)
        least = fmin(least, dot(p->middle, p->corner[i]));
    return acos(fmax(least, -1));
}

/* The sides, after a halfspace around all of a small polygon. */
static size_t side_rows(const struct polygon *p, int sense, double reach, int32_t *rows)
{
    size_t guard = reach < GUARD_BELOW * DEGREE && p->count < MOST_CORNERS;
    if (guard)
        put_row(rows, 0, p->middle, halfspace_offset(reach));
    for (size_t i = 0; i < p->count; i++)
        put_row(rows + ROW * (guard + i), 0, mix(sense, p->side[i], 0, p->side[i]), SIDE_OFFSET);
    return guard + p->count;
}

int64_t sky_polygon(const double *degrees, size_t corners, uint32_t depth, uint32_t budget, uint8_t *file, size_t bytes)
{
    struct polygon p;
    int32_t rows[ROW * MOST_CORNERS];
    int64_t bad = read_corners(&p, degrees, corners);
    if (bad == 0)
        bad = find_sides(&p);
    if (bad)
        return bad;
    int sense = find_sense(&p);
    if (sense == 0 || !find_middle(&p) || turns(&p) != sense)
        return SKY_CONVEX;
    double reach = reach_of(&p);
    return write_region(depth, reach, budget, rows, side_rows(&p, sense, reach, rows), file, bytes);
}

/* ---- pieces */

/* The two lists of a cover at the file's depth. */
struct lists {
    uint64_t pairs[HTM_RANGES_LENGTH], outer, inner; /* how many ranges each has; the outer one begins at pairs[0] */
    const uint64_t *inner_pairs;
    unsigned shift; /* by how many bits an identifier of the file's depth is shifted to the first of depth 12 below it */
};

static int64_t find_lists(const uint8_t *file, size_t bytes, struct lists *l)
{
    uint64_t contents[HTM_CONTENTS_LENGTH], counts[HTM_COVER_COUNTS];
    int64_t answer = htm_header(file, bytes, contents, HTM_CONTENTS_LENGTH);
    if (answer == 0)
        answer = htm_cover(file, bytes, l->pairs, HTM_RANGES_LENGTH, counts, HTM_COVER_COUNTS);
    if (answer < 0)
        return answer;
    l->outer = counts[0];
    l->inner = counts[1];
    l->inner_pairs = l->pairs + 2 * (contents[2] ? contents[2] : HTM_DEFAULT_BUDGET);
    l->shift = 2 * (unsigned)(SKY_FILED_DEPTH - contents[1]);
    return 0;
}

/* Identifiers from low to before end, at the file's depth, as a piece: the count of pieces with it. pieces is null where they are only counted. */
static size_t add_piece(struct sky_piece *pieces, size_t count, const struct lists *l, uint64_t low, uint64_t end, int inner)
{
    if (low >= end)
        return count;
    if (pieces)
        pieces[count] = (struct sky_piece){low << l->shift, (end << l->shift) - 1, inner};
    return count + 1;
}

/* The inner ranges, and what they leave of the outer ranges. Every full trixel is accepted, so that an inner range lies in one outer range. */
static size_t part(const struct lists *l, struct sky_piece *pieces)
{
    size_t count = 0;
    const uint64_t *inner = l->inner_pairs, *last = inner + 2 * l->inner;
    for (uint64_t i = 0; i < l->outer; i++) {
        uint64_t from = l->pairs[2 * i], end = l->pairs[2 * i + 1] + 1;
        for (; inner < last && inner[1] < end; inner += 2) {
            count = add_piece(pieces, count, l, from, inner[0], 0);
            count = add_piece(pieces, count, l, inner[0], inner[1] + 1, 1);
            from = inner[1] + 1;
        }
        count = add_piece(pieces, count, l, from, end, 0);
    }
    return count;
}

int64_t sky_pieces(const uint8_t *file, size_t bytes, struct sky_piece *pieces, size_t room)
{
    struct lists l;
    int64_t answer = find_lists(file, bytes, &l);
    if (answer < 0)
        return answer;
    if (part(&l, NULL) > room)
        return -HTM_SPACE;
    return (int64_t)part(&l, pieces);
}

/* ---- words */

static const char *const refusals[] = {
    [0] = "no refusal",
    [HTM_LONG] = "refused 1 (long): the region file has more than 10508 bytes",
    [HTM_TORN] = "refused 2 (torn): a record of the region file does not fit what is left of it",
    [HTM_KIND] = "refused 3 (kind): a record of the region file is of an unknown kind, or not of its length",
    [HTM_ORDER] = "refused 4 (order): records or rows are out of order, or missing",
    [HTM_DEPTH] = "refused 5 (depth): not from 1 to 12",
    [HTM_BUDGET] = "refused 6 (budget): over 2048",
    [HTM_CROWD] = "refused 7 (crowd): over 64 convexes, 100 halfspaces in one, or 512 in all",
    [HTM_VECTOR] = "refused 8 (vector): a direction or a point that is no pointing",
    [HTM_OFFSET] = "refused 9 (offset): not from -1048576 to 1048576",
    [HTM_SPACE] = "refused 10 (space): a list is too short",
    [HTM_NAME] = "refused 11 (name): no name or identifier",
    [HTM_FLOAT] = "refused 12 (float): a number that is not finite, or beyond 1 in size",
    [HTM_LINE] = "refused 13 (line): a catalogue line is malformed",
    [HTM_MIXED] = "refused 14 (mixed): a record of the other style",
    [HTM_TWICE] = "refused 15 (twice): the number is its owner's",
    [HTM_FULL] = "refused 16 (full): 1024 exposures are the owner's",
    [HTM_ABSENT] = "refused 17 (absent): no such number of its owner's",
    [HTM_OWNER] = "refused 18 (owner): not 0 or 1",
};

const char *sky_message(int64_t code)
{
    switch (code) {
    case SKY_RA:
        return "the right ascension is not a number from -360 to 360";
    case SKY_DEC:
        return "the declination is not a number from -90 to 90";
    case SKY_RADIUS:
        return "the radius is not a number from 0 to 180";
    case SKY_FEW:
        return "a polygon has at least 3 corners";
    case SKY_MANY:
        return "a polygon has at most 100 corners";
    case SKY_CLOSE:
        return "two corners in a row are the same, opposite, or closer than 0.2 seconds of arc";
    case SKY_CONVEX:
        return "the corners do not go around a convex polygon once";
    }
    if (code > 0)
        return refusals[0];
    return code >= -HTM_OWNER ? refusals[-code] : "no code of this library";
}
