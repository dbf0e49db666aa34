/* The layer of degrees beside arithmetic in long double: random cones and polygons, points that are true by their degrees, and input that is
 * refused. Prints what README.md's table says, and ends with 1 where a true point is missed or something else differs. */
#define _POSIX_C_SOURCE 199309L
#include "htm_sky.h"

#include <inttypes.h>
#include <math.h>
#include <stdarg.h>
#include <stdbool.h>
#include <stdio.h>
#include <stdlib.h>
#include <string.h>
#include <time.h>

#define K HTM_K
#define PI 3.14159265358979323846264338327950288L
#define DEGREE (PI / 180)
#define FILE_BYTES HTM_FILE_BYTES
#define ROUNDING 1.7321L /* by how much n.p / K is off at most, when both are rounded */
#define SPECIAL 8        /* centres on axes and other places */
#define CENTRES 24       /* those, and some anywhere */
#define POINTS 1600      /* for each centre and radius */
#define SPOT 0xa5        /* what a byte has that is not written */

static long failures, points_tried, true_points;

static void expect(bool good, const char *format, ...)
{
    va_list list;
    if (good || failures++ >= 20)
        return;
    va_start(list, format);
    printf("wrong: ");
    vprintf(format, list);
    printf("\n");
    va_end(list);
}

/* splitmix64: from 0 to 1 */
static long double draw(void)
{
    static uint64_t state = 36;
    uint64_t n = state += 0x9e3779b97f4a7c15;
    n = (n ^ (n >> 30)) * 0xbf58476d1ce4e5b9;
    n = (n ^ (n >> 27)) * 0x94d049bb133111eb;
    return (long double)((n ^ (n >> 31)) >> 11) / 9007199254740992;
}

static double now(void)
{
    struct timespec t;
    clock_gettime(CLOCK_PROCESS_CPUTIME_ID, &t); /* of the processor: others may work beside it */
    return 1e6 * (double)t.tv_sec + 1e-3 * (double)t.tv_nsec;
}

/* ---- directions in long double */

struct exact {
    long double x, y, z;
};

struct degrees {
    double ra, dec;
};

static struct exact exact_of(struct degrees g)
{
    long double a = g.ra * DEGREE, d = g.dec * DEGREE;
    return (struct exact){cosl(d) * cosl(a), cosl(d) * sinl(a), sinl(d)};
}

static long double dot(struct exact a, struct exact b)
{
    return a.x * b.x + a.y * b.y + a.z * b.z;
}

static struct exact cross(struct exact a, struct exact b)
{
    return (struct exact){a.y * b.z - a.z * b.y, a.z * b.x - a.x * b.z, a.x * b.y - a.y * b.x};
}

static struct exact mix(long double s, struct exact a, long double t, struct exact b)
{
    return (struct exact){s * a.x + t * b.x, s * a.y + t * b.y, s * a.z + t * b.z};
}

static struct exact unit(struct exact a)
{
    return mix(1 / sqrtl(dot(a, a)), a, 0, a);
}

static long double angle(struct exact a, struct exact b)
{
    struct exact c = cross(a, b);
    return atan2l(sqrtl(dot(c, c)), dot(a, b));
}

/* The degrees of a direction, rounded to double; the right ascension from either end of its turn. */
static struct degrees degrees_of(struct exact u)
{
    long double ra = atan2l(u.y, u.x) / DEGREE, dec = asinl(fminl(1, fmaxl(-1, u.z))) / DEGREE;
    if (draw() < 0.5)
        ra += ra < 0 ? 360 : -360;
    return (struct degrees){(double)ra, (double)dec};
}

/* At the angle r from the centre, in the given bearing. */
static struct exact around(struct degrees centre, long double r, long double bearing)
{
    long double a = centre.ra * DEGREE;
    struct exact c = exact_of(centre), east = {-sinl(a), cosl(a), 0}, side = mix(cosl(bearing), east, sinl(bearing), cross(c, east));
    return mix(cosl(r), c, sinl(r), side);
}

static struct degrees anywhere(void)
{
    return (struct degrees){(double)(720 * draw() - 360), (double)(asinl(2 * draw() - 1) / DEGREE)};
}

/* ---- a region and its pieces */

struct region {
    uint8_t file[FILE_BYTES];
    size_t bytes;
    struct sky_piece pieces[SKY_PIECES];
    int64_t count;
    double us; /* that its pieces took */
};

static struct region region;

static void find_pieces(struct region *r, int64_t bytes)
{
    expect(bytes > 0, "no region: %s", sky_message(bytes));
    r->bytes = bytes > 0 ? (size_t)bytes : 0;
    r->us = 1e9;
    for (int i = 0; i < 3; i++) {
        double start = now();
        r->count = sky_pieces(r->file, r->bytes, r->pieces, SKY_PIECES);
        r->us = fmin(r->us, now() - start);
    }
    expect(r->count > 0, "no pieces: %s", sky_message(r->count));
    r->count = r->count > 0 ? r->count : 0;
    for (int64_t i = 0; i < r->count; i++) {
        expect(r->pieces[i].low <= r->pieces[i].high, "piece %" PRId64 " is empty", i);
        expect(i == 0 || r->pieces[i - 1].high < r->pieces[i].low, "piece %" PRId64 " does not ascend", i);
    }
}

/* Beside the cover's own lists: as many identifiers, in all and in inner ranges. */
static void check_pieces(const struct region *r)
{
    static int32_t rows[HTM_ROWS_LENGTH];
    static uint64_t lists[HTM_RANGES_LENGTH];
    uint64_t header[HTM_HEADER_LENGTH], counts[HTM_COVER_COUNTS], inner = 0, all = 0, want = 0;
    if (htm_read(r->file, r->bytes, rows, HTM_ROWS_LENGTH, header, HTM_HEADER_LENGTH) ||
        htm_cover(r->file, r->bytes, lists, HTM_RANGES_LENGTH, counts, HTM_COVER_COUNTS))
        return; /* refused, and said so before */
    for (int64_t i = 0; i < r->count; i++) {
        uint64_t size = r->pieces[i].high - r->pieces[i].low + 1;
        all += size;
        inner += r->pieces[i].inner ? size : 0;
    }
    unsigned shift = 2 * (unsigned)(SKY_FILED_DEPTH - header[1]);
    const uint64_t *list = lists + 2 * (header[2] ? header[2] : HTM_DEFAULT_BUDGET);
    for (uint64_t i = 0; i < counts[1]; i++)
        want += (list[2 * i + 1] - list[2 * i] + 1) << shift;
    expect(inner == want, "inner pieces have %" PRIu64 " identifiers, inner ranges %" PRIu64, inner, want);
    want = (counts[3] + counts[4] + counts[5]) << shift;
    expect(all == want, "pieces have %" PRIu64 " identifiers, outer ranges %" PRIu64, all, want);
}

static const struct sky_piece *piece_of(const struct region *r, uint64_t id)
{
    for (int64_t low = 0, high = r->count; low < high;) {
        int64_t i = (low + high) / 2;
        if (id < r->pieces[i].low)
            high = i;
        else if (id > r->pieces[i].high)
            low = i + 1;
        else
            return &r->pieces[i];
    }
    return NULL;
}

/* Whether the region holds the rounded point; its piece must agree. */
static bool held(const struct region *r, struct degrees g)
{
    int32_t p[3];
    expect(sky_pointing(g.ra, g.dec, p) == 0, "%.17g %.17g is no pointing", g.ra, g.dec);
    int64_t id = sky_lookup(g.ra, g.dec, 12), in = htm_holds(r->file, r->bytes, p[0], p[1], p[2]);
    const struct sky_piece *piece = id > 0 ? piece_of(r, (uint64_t)id) : NULL;
    expect(id > 0 && in >= 0, "%.17g %.17g is refused", g.ra, g.dec);
    expect(piece ? in || !piece->inner : !in, "%.17g %.17g is held %d beside its piece", g.ra, g.dec, (int)in);
    points_tried++;
    return in == 1;
}

/* ---- cones */

struct tally {
    long truths, missed;       /* points within the radius; those of them that are not held */
    long evenly, lost, beyond; /* as above, for points spread evenly around centres anywhere; and how many are held though beyond the radius */
    double us;                 /* that pieces took, on the average */
};

/* How far a held direction may be from the centre. A halfspace's offset loses HALFSPACE_MARGIN and is rounded down; circles are at most
 * 0.74 + 1 + ROUNDING units out, and the corners between 32 of them farther. */
static long double farthest(long double r)
{
    if (r < 2 * DEGREE)
        return atanl(tanl(r + 3.4722L / K) / cosl(PI / 32));
    long double cosine = cosl(r) - (1.733L + 1 + ROUNDING) / K;
    return cosine < -1 ? PI : acosl(cosine);
}

static int64_t cone(struct degrees c, double radius, uint32_t depth, uint32_t budget)
{
    return sky_cone(c.ra, c.dec, radius, depth, budget, region.file, FILE_BYTES);
}

/* As one would write it at first: one halfspace, its offset rounded to the nearest. */
static int64_t plain_cone(struct degrees c, double radius)
{
    int32_t row[5] = {0, 0, 0, 0, (int32_t)lroundl(K * cosl(radius * DEGREE))};
    sky_pointing(c.ra, c.dec, row + 1);
    return htm_write(12, SKY_BUDGET, row, 5, region.file, FILE_BYTES);
}

/* A point at the angle from the centre. */
static void try_point(struct tally *t, struct degrees c, long double r, long double from, bool plain, bool evenly)
{
    struct degrees g = degrees_of(around(c, from, 2 * PI * draw()));
    long double true_angle = angle(exact_of(c), exact_of(g));
    bool truth = true_angle <= r, in = held(&region, g);
    t->truths += truth;
    t->missed += truth && !in;
    t->evenly += evenly && truth;
    t->lost += evenly && truth && !in;
    t->beyond += evenly && in && !truth;
    if (!plain)
        expect(!in || true_angle <= farthest(r), "%.17g %.17g is held, %.9Lg from the centre", g.ra, g.dec, true_angle / DEGREE);
}

/* Three points of four are spread evenly within far, one is close to the radius. */
static void try_cone(struct tally *t, struct degrees c, long double r, long double far, bool plain, bool counted)
{
    for (int k = 0; k < POINTS; k++) {
        long double share = draw();
        if (k % 4)
            try_point(t, c, r, 2 * asinl(sinl(far / 2) * sqrtl(share)), plain, counted);
        else
            try_point(t, c, r, fmaxl(0, r - (k % 8 ? 3 * share / K : share * share * r)), plain, false);
    }
}

static struct degrees centre_number(int i)
{
    static const struct degrees special[SPECIAL] = {{0, 90}, {77, -90}, {0, 0}, {360, 0}, {-360, 45}, {90, 0}, {45, 35.264389682754654}, {180, -30}};
    return i < SPECIAL ? special[i] : anywhere();
}

static struct tally try_cones(double radius, bool plain)
{
    struct tally t = {0};
    long double r = radius * DEGREE;
    long double far = fminl(PI, plain ? 2 * asinl(sqrtl((1 - cosl(r) + 2.3L / K) / 2)) : 1.01L * farthest(r) + 1.0L / K);
    for (int i = 0; i < CENTRES; i++) {
        struct degrees c = centre_number(i);
        find_pieces(&region, plain ? plain_cone(c, radius) : cone(c, radius, SKY_CHOOSE_DEPTH, SKY_BUDGET));
        t.us += region.us / CENTRES;
        try_cone(&t, c, r, far, plain, i >= SPECIAL);
    }
    if (!plain) {
        true_points += t.truths;
        expect(t.missed == 0, "radius %g: %ld true points are missed", radius, t.missed);
    }
    return t;
}

static double percent(long part, long whole)
{
    return 100.0 * (double)part / (double)whole;
}

static void print_cones(const char *name, double radius, double bound)
{
    struct tally ours = try_cones(radius, false), plain = try_cones(radius, true);
    double beyond = percent(ours.beyond, ours.evenly);
    printf("| %s | %s | %ld | %ld | %.2f %% | %.0f | %.2f %% | %.2f %% |\n", name, radius < 2 ? "circles" : "halfspace", ours.truths, ours.missed,
           beyond, ours.us, percent(plain.lost, plain.evenly), percent(plain.beyond, plain.evenly));
    expect(beyond <= bound, "%s: %.2f %% is held beyond", name, beyond);
}

static void test_cones(void)
{
    static const struct {
        const char *name;
        double radius, bound; /* percent */
    } table[] = {{"10″", 10 / 3600.0, 8}, {"1′", 1 / 60.0, 1.8}, {"5′", 5 / 60.0, 0.8}, {"15′", 0.25, 0.6}, {"1°", 1, 0.5},
                 {"2°", 2, 0.5},          {"5°", 5, 0.1},        {"30°", 30, 0.05},     {"90°", 90, 0.02}};
    static const double others[] = {0, 1e-6, 1 / 3600.0, 0.7, 1.99999, 2.00001, 10, 60, 89.99999, 90.00001, 120, 170, 179.89, 179.9, 180};
    printf("| radius | made of | true points | missed | held beyond | pieces, µs | plain: missed | plain: held beyond |\n");
    printf("|---|---|---|---|---|---|---|---|\n");
    for (size_t i = 0; i < sizeof table / sizeof table[0]; i++)
        print_cones(table[i].name, table[i].radius, table[i].bound);
    for (size_t i = 0; i < sizeof others / sizeof others[0]; i++)
        try_cones(others[i], false);
}

/* The centre itself, every depth and many budgets. */
static void test_settings(void)
{
    static const double radii[] = {0, 1e-6, 0.01, 1, 3, 40, 100, 180};
    static const uint32_t budgets[] = {0, 1, 5, 64, HTM_MAX_BUDGET};
    for (size_t i = 0; i < 8; i++)
        for (uint32_t depth = 1; depth <= 12; depth++)
            for (size_t k = 0; k < 5; k++) {
                struct degrees c = anywhere();
                find_pieces(&region, cone(c, radii[i], depth, budgets[k]));
                check_pieces(&region);
                expect(region.file[4] == depth && region.file[6] == budgets[k] % 256, "depth and budget are not those asked for");
                expect(held(&region, c), "a cone of %g misses its centre", radii[i]);
                for (int n = 0; n < 20; n++)
                    held(&region, anywhere());
            }
}

/* ---- polygons */

#define MOST 100

struct polygon {
    size_t count;
    double degrees[2 * MOST];
    struct exact side[MOST]; /* its direction, towards the inner side */
    struct degrees middle;
    long double reach;
};

static struct polygon polygon;

/* Corners on an ellipse around a direction, in the plane that touches the sphere there: straight lines of that plane are great circles. */
static void make_polygon(struct polygon *p)
{
    static const long double reaches[] = {1e-5L, 3e-4L, 0.004L, 0.02L, 0.3L, 2, 20};
    size_t many = draw() < 0.1 ? MOST : 3 + (size_t)(8 * draw());
    long double wide = reaches[(int)(7 * draw())], narrow = wide * (0.05L + 0.95L * draw()), turn = 2 * PI * draw(), from = 2 * PI * draw();
    bool backwards = draw() < 0.5;
    p->count = many;
    p->reach = 0;
    p->middle = draw() < 0.2 ? centre_number((int)(8 * draw())) : anywhere();
    for (size_t i = 0; i < many; i++) {
        long double t = from + 2 * PI * ((long double)i + 0.6L * draw()) / (long double)many, a = wide * cosl(t), b = narrow * sinl(t);
        struct degrees g = degrees_of(around(p->middle, atanl(hypotl(a, b)), atan2l(b, a) + turn));
        size_t at = backwards ? many - 1 - i : i;
        p->degrees[2 * at] = g.ra;
        p->degrees[2 * at + 1] = g.dec;
        p->reach = fmaxl(p->reach, atanl(hypotl(a, b)));
    }
    for (size_t i = 0; i < many; i++) {
        size_t next = (i + 1) % many;
        struct exact a = exact_of((struct degrees){p->degrees[2 * i], p->degrees[2 * i + 1]});
        struct exact b = exact_of((struct degrees){p->degrees[2 * next], p->degrees[2 * next + 1]});
        p->side[i] = unit(backwards ? cross(b, a) : cross(a, b));
    }
}

/* The least height above a side, in radians: 0 or more inside. */
static long double height(const struct polygon *p, struct exact u)
{
    long double least = 1;
    for (size_t i = 0; i < p->count; i++)
        least = fminl(least, dot(p->side[i], u));
    return least;
}

/* Between two corners, a corner, or somewhere near. */
static struct degrees polygon_point(const struct polygon *p)
{
    size_t i = (size_t)((long double)p->count * draw()), k = (i + 1 + (size_t)(2 * draw())) % p->count;
    struct exact a = exact_of((struct degrees){p->degrees[2 * i], p->degrees[2 * i + 1]});
    struct exact b = exact_of((struct degrees){p->degrees[2 * k], p->degrees[2 * k + 1]});
    if (draw() < 0.5)
        return degrees_of(around(p->middle, 1.1L * p->reach * sqrtl(draw()), 2 * PI * draw()));
    struct exact edge = unit(mix(draw(), a, draw(), b));
    return degrees_of(unit(mix(1, edge, 2.0L * (draw() - 0.3L) / K, exact_of(p->middle))));
}

static void test_polygons(void)
{
    long truths = 0, missed = 0, beyond = 0, made = 0;
    for (int n = 0; n < 500; n++) {
        make_polygon(&polygon);
        int64_t bytes = sky_polygon(polygon.degrees, polygon.count, SKY_CHOOSE_DEPTH, SKY_BUDGET, region.file, FILE_BYTES);
        if (bytes == SKY_CLOSE && polygon.reach < 2e-6L * (long double)polygon.count)
            continue;
        expect(bytes > 0, "polygon %d, %zu corners: %s", n, polygon.count, sky_message(bytes));
        find_pieces(&region, bytes);
        check_pieces(&region);
        made++;
        for (int i = 0; i < 400; i++) {
            struct degrees g = polygon_point(&polygon);
            long double above = height(&polygon, exact_of(g));
            bool in = held(&region, g);
            truths += above >= 0;
            missed += above >= 0 && !in;
            beyond += above < 0 && in;
            expect(!in || above >= -3.7322L / K, "%.17g %.17g is held, %.3Lg units beyond a side", g.ra, g.dec, -above * K);
        }
    }
    true_points += truths;
    printf("%ld polygons, %ld true points, %ld missed; %ld points were held beyond a side, none by more than 0.74 seconds of arc\n", made, truths,
           missed, beyond);
    expect(missed == 0 && made > 400, "polygons: %ld true points are missed of %ld polygons", missed, made);
}

/* ---- what is refused */

static bool untouched(const uint8_t *file)
{
    for (size_t i = 0; i < FILE_BYTES; i++)
        if (file[i] != SPOT)
            return false;
    return true;
}

static void refused(const char *what, int64_t answer, int64_t want)
{
    expect(answer == want, "%s: %" PRId64 " (%s), not %" PRId64, what, answer, sky_message(answer), want);
    expect(untouched(region.file), "%s: something is written", what);
    memset(region.file, SPOT, FILE_BYTES);
}

static void test_bad_cones(void)
{
    int32_t p[3] = {7, 7, 7};
    memset(region.file, SPOT, FILE_BYTES);
    const double bad[] = {NAN, INFINITY, -INFINITY, 360.0000001, -360.0000001, 1e300};
    for (size_t i = 0; i < 6; i++) {
        refused("right ascension", sky_pointing(bad[i], 100, p), SKY_RA);
        refused("declination", sky_pointing(0, bad[i], p), SKY_DEC);
        refused("lookup", sky_lookup(bad[i], 0, 99), SKY_RA);
        refused("lookup", sky_lookup(0, bad[i], 99), SKY_DEC);
        refused("cone", sky_cone(bad[i], 100, -1, 99, 9999, region.file, 0), SKY_RA);
        refused("cone", sky_cone(0, bad[i], -1, 99, 9999, region.file, 0), SKY_DEC);
        refused("cone", sky_cone(0, 0, bad[i], 99, 9999, region.file, 0), SKY_RADIUS);
    }
    refused("radius", sky_cone(0, 0, -1e-300, 12, 64, region.file, FILE_BYTES), SKY_RADIUS);
    refused("radius", sky_cone(0, 0, 180.0000001, 12, 64, region.file, FILE_BYTES), SKY_RADIUS);
    refused("depth", sky_lookup(0, 0, 0), -HTM_DEPTH);
    refused("depth", sky_lookup(0, 0, 13), -HTM_DEPTH);
    refused("depth", sky_cone(0, 0, 1, 13, 9999, region.file, 0), -HTM_DEPTH);
    refused("budget", sky_cone(0, 0, 1, 0, 2049, region.file, 0), -HTM_BUDGET);
    refused("space", sky_cone(0, 0, 1, 0, 64, region.file, 675), -HTM_SPACE);
    refused("space", sky_cone(0, 0, 5, 0, 64, region.file, 35), -HTM_SPACE);
    expect(p[0] == 7 && p[1] == 7 && p[2] == 7, "a refused pointing is written");
}

static void test_bad_polygons(void)
{
    static const struct {
        const char *name;
        int64_t want; /* 0: a region */
        size_t count;
        double at[16];
    } table[] = {
        {"two corners", SKY_FEW, 2, {0, 0, 1, 1}},
        {"a corner that is no number", SKY_RA, 3, {0, 0, 1, 1, NAN, 5}},
        {"a declination of 91 before a right ascension of 400", SKY_DEC, 3, {0, 0, 1, 91, 400, 0}},
        {"a corner twice", SKY_CLOSE, 4, {0, 0, 1, 0, 1, 0, 1, 1}},
        {"the first corner again at the end", SKY_CLOSE, 4, {0, 0, 1, 0, 1, 1, 0, 0}},
        {"the same corner by other degrees", SKY_CLOSE, 4, {0, 0, 1, 0, 361 - 720, 0, 1, 1}},
        {"both at the pole", SKY_CLOSE, 4, {0, 0, 90, 90, 180, 90, 90, 0}},
        {"opposite corners", SKY_CLOSE, 3, {10, 20, 190, -20, 50, 50}},
        {"0.1 seconds of arc apart", SKY_CLOSE, 3, {0, 0, 0, 0.1 / 3600, 1, 1}},
        {"a dart", SKY_CONVEX, 4, {0, 0, 10, 5, 0, 10, 3, 5}},
        {"a bow tie", SKY_CONVEX, 4, {0, 0, 10, 10, 10, 0, 0, 10}},
        {"a star of five points", SKY_CONVEX, 5, {10, 0, -8, 6, 3, -9.5, 3, 9.5, -8, -6}},
        {"around twice", SKY_CONVEX, 6, {0, 0, 10, 0, 5, 8, 0, 0, 10, 0, 5, 8}},
        {"there and back", SKY_CONVEX, 4, {0, 0, 10, 0, 5, 0, 5, 8}},
        {"all on one great circle", SKY_CONVEX, 3, {0, 0, 10, 0, 20, 0}},
        {"a hemisphere", SKY_CONVEX, 3, {0, 0, 120, 0, 240, 0}},
        {"all around, up and down", SKY_CONVEX, 6, {0, 10, 60, -10, 120, 10, 180, -10, 240, 10, 300, -10}},
        {"four corners that no hemisphere has", SKY_CONVEX, 4, {0, 90, 0, -19, 120, -19, 240, -19}},
        {"a dent of one second of arc", SKY_CONVEX, 4, {0, 0, 5, 1.0 / 3600, 10, 0, 5, 8}},
        {"a corner within a side", 0, 4, {0, 0, 5, 0, 10, 0, 5, 8}},
        {"a corner within a side, 0.001 seconds of arc inwards", 0, 4, {0, 0, 5, 0.001 / 3600, 10, 0, 5, 8}},
        {"a pole inside", 0, 3, {0, 80, 120, 80, 240, 80}},
        {"nearly a hemisphere", 0, 3, {0, 0.001, 120, 0.001, 240, 0.001}},
        {"between two meridians, pole to pole", 0, 4, {0, 0, 0, 90, 30, 0, 0, -90}},
        {"clockwise", 0, 4, {0, 0, 0, 1, 1, 1, 1, 0}},
        {"over right ascension 0", 0, 4, {359, -1, 1, -1, 361 - 360, 1, -1, 1}},
        {"a second of arc", 0, 3, {0, 89.9999, 0, 89.9997, 90, 89.9997}},
    };
    for (size_t i = 0; i < sizeof table / sizeof table[0]; i++) {
        memset(region.file, SPOT, FILE_BYTES);
        int64_t answer = sky_polygon(table[i].at, table[i].count, 0, 64, region.file, FILE_BYTES);
        if (table[i].want)
            refused(table[i].name, answer, table[i].want);
        else
            expect(answer > 0, "%s: %s", table[i].name, sky_message(answer));
    }
    static double ring[2 * 101];
    for (int i = 0; i < 101; i++) {
        ring[2 * i] = 3.5 * i;
        ring[2 * i + 1] = 50;
    }
    memset(region.file, SPOT, FILE_BYTES);
    refused("101 corners", sky_polygon(ring, 101, 0, 64, region.file, FILE_BYTES), SKY_MANY);
    refused("no corner", sky_polygon(ring, 0, 0, 64, region.file, FILE_BYTES), SKY_FEW);
    refused("depth", sky_polygon(ring, 100, 13, 2049, region.file, 0), -HTM_DEPTH);
    refused("budget", sky_polygon(ring, 100, 0, 2049, region.file, 0), -HTM_BUDGET);
    refused("space", sky_polygon(ring, 100, 0, 64, region.file, 2015), -HTM_SPACE);
    expect(sky_polygon(ring, 100, 0, 64, region.file, 2016) == 2016, "100 corners in 2016 bytes");
}

static void test_bad_pieces(void)
{
    struct sky_piece spot = {1, 2, 3};
    int64_t bytes = sky_cone(10, 20, 3, 8, 64, region.file, FILE_BYTES), count;
    static struct sky_piece pieces[SKY_PIECES];
    for (int i = 0; i < SKY_PIECES; i++)
        pieces[i] = spot;
    expect(sky_pieces(region.file, (size_t)bytes - 1, pieces, SKY_PIECES) == -HTM_TORN, "a torn file");
    expect(sky_pieces(region.file, 0, pieces, 0) == -HTM_TORN, "an empty file");
    expect(pieces[0].low == 1, "pieces of a refused file");
    count = sky_pieces(region.file, (size_t)bytes, region.pieces, SKY_PIECES);
    expect(count > 3, "no pieces");
    expect(sky_pieces(region.file, (size_t)bytes, pieces, (size_t)count - 1) == -HTM_SPACE, "one piece too many");
    expect(pieces[0].low == 1, "pieces without room are written");
    expect(sky_pieces(region.file, (size_t)bytes, pieces, (size_t)count) == count, "room for all pieces");
    expect(pieces[count - 1].low > 1 && pieces[count].low == 1, "as many pieces as there are");
}

static void test_messages(void)
{
    static const char *const words[] = {"long",  "torn", "kind",  "order", "depth", "budget", "crowd",  "vector", "offset",
                                        "space", "name", "float", "line",  "mixed", "twice",  "full", "absent", "owner"};
    char begin[40];
    for (int i = 1; i <= 18; i++) {
        snprintf(begin, sizeof begin, "refused %d (%s): ", i, words[i - 1]);
        expect(strncmp(sky_message(-i), begin, strlen(begin)) == 0, "message %d: %s", i, sky_message(-i));
    }
    for (int64_t code = SKY_CONVEX; code <= SKY_RA; code++)
        expect(strlen(sky_message(code)) > 20 && strcmp(sky_message(code), sky_message(-50)) != 0, "message %" PRId64, code);
    const int64_t others[] = {0, 1, INT64_MAX, -19, -100, -108, INT64_MIN};
    for (size_t i = 0; i < 7; i++)
        expect(strlen(sky_message(others[i])) > 0, "message %" PRId64, others[i]);
}

/* ---- pointings */

static void test_pointings(void)
{
    static const struct {
        double ra, dec;
        int32_t p[3];
    } table[] = {{0, 0, {K, 0, 0}},   {90, 0, {0, K, 0}},   {180, 0, {-K, 0, 0}}, {270, 0, {0, -K, 0}},
                 {0, 90, {0, 0, K}},  {33, -90, {0, 0, -K}}, {360, 0, {K, 0, 0}},  {-360, 0, {K, 0, 0}},
                 {-90, 0, {0, -K, 0}}, {0, 30, {908093, 0, 524288}}, {60, 0, {524288, 908093, 0}}, {45, 45, {524288, 524288, 741455}}};
    int32_t p[3];
    for (size_t i = 0; i < sizeof table / sizeof table[0]; i++)
        expect(sky_pointing(table[i].ra, table[i].dec, p) == 0 && memcmp(p, table[i].p, sizeof p) == 0, "pointing of %g %g: %d %d %d", table[i].ra,
               table[i].dec, p[0], p[1], p[2]);
    expect(sky_lookup(0, 90, 12) == 63963136 && sky_lookup(0, 90, 1) == 15, "lookup of the pole");
    for (int i = 0; i < 100000; i++) {
        struct degrees g = anywhere();
        struct exact u = exact_of(g);
        sky_pointing(g.ra, g.dec, p);
        long double off = fmaxl(fabsl(K * u.x - p[0]), fmaxl(fabsl(K * u.y - p[1]), fabsl(K * u.z - p[2])));
        expect(off <= 0.5L + 1e-8L, "%.17g %.17g is %.9Lg from its pointing", g.ra, g.dec, off);
    }
}

int main(void)
{
    double start = now();
    test_pointings();
    test_cones();
    test_settings();
    test_polygons();
    test_bad_cones();
    test_bad_polygons();
    test_bad_pieces();
    test_messages();
    expect(true_points >= 200000, "only %ld true points", true_points);
    printf("sky: %ld points, %ld of them true; %ld wrong; %.1f s\n", points_tried, true_points, failures, (now() - start) / 1e6);
    return failures ? 1 : 0;
}
