/* What the choices of htm_sky.c cost and gain, as tables for README.md: ways to write a cone, the offset of a polygon's side, the depth. */
#define _POSIX_C_SOURCE 199309L
#include "htm_sky.c"

#include <stdio.h>
#include <time.h>

#define TRIALS 24
#define SPREAD 4000 /* points for what is held beyond */

static uint64_t state;

/* splitmix64: from 0 to 1 */
static double draw(void)
{
    uint64_t n = state += 0x9e3779b97f4a7c15;
    n = (n ^ (n >> 30)) * 0xbf58476d1ce4e5b9;
    n = (n ^ (n >> 27)) * 0x94d049bb133111eb;
    return (double)((n ^ (n >> 31)) >> 11) / 9007199254740992.0;
}

static double now(void)
{
    struct timespec t;
    clock_gettime(CLOCK_PROCESS_CPUTIME_ID, &t); /* of the processor: others may work beside it */
    return 1e6 * (double)t.tv_sec + 1e-3 * (double)t.tv_nsec;
}

struct centre {
    double ra, dec;
    struct direction at, east, north;
};

static struct centre anywhere(void)
{
    struct centre c = {.ra = 360 * draw(), .dec = asin(2 * draw() - 1) / DEGREE};
    c.at = toward(c.ra, c.dec);
    c.east = (struct direction){-sin(c.ra * DEGREE), cos(c.ra * DEGREE), 0};
    c.north = cross(c.at, c.east);
    return c;
}

static struct direction around(const struct centre *c, double r, double bearing)
{
    return mix(cos(r), c->at, sin(r), mix(cos(bearing), c->east, sin(bearing), c->north));
}

/* The least time of five covers, and the identifiers of the outer ranges, in all TRIALS. */
struct cost {
    double us, identifiers, truths, beyond;
};

static void time_cover(struct cost *t, const int32_t *rows, size_t count)
{
    static uint8_t file[HTM_FILE_BYTES];
    static uint64_t lists[HTM_RANGES_LENGTH];
    uint64_t counts[HTM_COVER_COUNTS];
    double least = 1e9;
    size_t bytes = (size_t)htm_write(HTM_MAX_DEPTH, SKY_BUDGET, rows, ROW * count, file, sizeof file);
    for (int i = 0; i < 5; i++) {
        double start = now();
        htm_cover(file, bytes, lists, HTM_RANGES_LENGTH, counts, HTM_COVER_COUNTS);
        least = fmin(least, now() - start);
    }
    t->us += least / TRIALS;
    t->identifiers += (double)(counts[3] + counts[4] + counts[5]) / TRIALS;
}

static int rows_hold(const int32_t *rows, size_t count, const int32_t p[3])
{
    for (const int32_t *r = rows; r < rows + ROW * count; r += ROW)
        if ((int64_t)r[1] * p[0] + (int64_t)r[2] * p[1] + (int64_t)r[3] * p[2] < (int64_t)r[4] * K)
            return 0;
    return 1;
}

static void count_beyond(struct cost *t, const struct centre *c, double r, const int32_t *rows, size_t count)
{
    double far = count == 1 ? 2 * asin(sqrt(pow(sin(r / 2), 2) + 3.0 / K)) : 1.1 * r + 5.0 / K;
    for (int i = 0; i < SPREAD; i++) {
        int32_t p[3];
        double from = 2 * asin(sin(far / 2) * sqrt(draw()));
        round_to(around(c, from, 360 * DEGREE * draw()), p);
        t->truths += from <= r;
        t->beyond += from > r && rows_hold(rows, count, p);
    }
}

static const double radii[] = {10 / 3600.0, 1 / 60.0, 5 / 60.0, 0.25, 1, 2, 5};
#define RADII 7

static struct cost cost_of_way(double r, int guard, int circles, double margin, int offset)
{
    struct cost t = {0};
    state = 36;
    for (int i = 0; i < TRIALS; i++) {
        int32_t rows[ROW * 101];
        struct centre c = anywhere();
        size_t count = 0;
        if (guard)
            put_row(rows + ROW * count++, 0, c.at, halfspace_offset(r));
        for (int k = 0; k < circles; k++) {
            struct direction side = around(&c, 90 * DEGREE, 360 * DEGREE * k / circles);
            put_row(rows + ROW * count++, 0, mix(sin(r + margin / K), c.at, cos(r + margin / K), side), offset);
        }
        time_cover(&t, rows, count);
        count_beyond(&t, &c, r, rows, count);
    }
    return t;
}

static void print_ways(void)
{
    static const struct {
        const char *name;
        int guard, circles, offset;
        double margin;
    } ways[] = {{"one halfspace", 1, 0, 0, 0},
                {"32 circles, offset 0", 0, 32, 0, 1.74},
                {"halfspace, 32 circles, offset 0", 1, 32, 0, 1.74},
                {"halfspace, 32 circles, offset −2", 1, 32, -2, 0},
                {"halfspace, 16 circles, offset −1", 1, 16, -1, 0.74},
                {"**halfspace, 32 circles, offset −1**", 1, 32, -1, 0.74},
                {"halfspace, 64 circles, offset −1", 1, 64, -1, 0.74}};
    printf("A cone at depth 12 within 64 ranges: cover in µs, identifiers of the outer ranges, held beyond\n\n");
    printf("| way | 10″ | 1′ | 5′ | 15′ | 1° | 2° | 5° |\n|---|---|---|---|---|---|---|---|\n");
    for (size_t i = 0; i < sizeof ways / sizeof ways[0]; i++) {
        printf("| %s |", ways[i].name);
        for (int k = 0; k < RADII; k++) {
            struct cost t = cost_of_way(radii[k] * DEGREE, ways[i].guard, ways[i].circles, ways[i].margin, ways[i].offset);
            printf(t.beyond > 10 * t.truths ? " %.0f, %.0f, > 1000 %% |" : " %.0f, %.0f, %.2f %% |", t.us, t.identifiers, 100 * t.beyond / t.truths);
        }
        printf("\n");
    }
}

/* A regular polygon. A tilted side turns about the axis that is at right angles to it and to the centre. */
static struct cost cost_of_sides(double reach, int sides, int guard, int offset, double tilt)
{
    struct cost t = {0};
    state = 36;
    for (int i = 0; i < TRIALS; i++) {
        int32_t rows[ROW * 101];
        struct centre c = anywhere();
        double turn = 360 * DEGREE * draw(), step = 360 * DEGREE / sides;
        size_t count = 0;
        if (guard)
            put_row(rows + ROW * count++, 0, c.at, halfspace_offset(reach));
        for (int k = 0; k < sides; k++) {
            struct direction n = cross(around(&c, reach, turn + k * step), around(&c, reach, turn + (k + 1) * step));
            n = mix(1 / sqrt(dot(n, n)), n, 0, n);
            struct direction inwards = mix(1, c.at, -dot(c.at, n), n);
            double length = sqrt(dot(inwards, inwards)), least = cos(reach);
            put_row(rows + ROW * count++, 0, mix(1, n, tilt / K / least / length, inwards), offset);
        }
        time_cover(&t, rows, count);
    }
    return t;
}

static void print_sides(void)
{
    static const struct {
        const char *name;
        double reach;
    } sizes[] = {{"10″", 10 / 3600.0}, {"5′", 5 / 60.0}, {"1°", 1}, {"5°", 5}, {"30°", 30}};
    printf("\nA polygon at depth 12 within 64 ranges: cover in µs, identifiers of the outer ranges\n\n");
    printf("| sides, reach | tilted by 1.74/K, offset 0 | offset −2 | halfspace before it, offset −2 |\n|---|---|---|---|\n");
    for (int sides = 4; sides <= 32; sides += 28)
        for (size_t i = 0; i < 5; i++) {
            double reach = sizes[i].reach * DEGREE;
            struct cost a = cost_of_sides(reach, sides, 0, 0, 1.74);
            struct cost b = cost_of_sides(reach, sides, 0, -2, 0), c = cost_of_sides(reach, sides, 1, -2, 0);
            printf("| %d, %s | %.0f, %.0f | %.0f, %.0f | %.0f, %.0f |\n", sides, sizes[i].name, a.us, a.identifiers, b.us, b.identifiers, c.us,
                   c.identifiers);
        }
}

/* The time of pieces, and the area of those that are to be tested, beside the cone's own. */
static struct cost cost_of_depth(double radius, uint32_t depth, uint32_t budget, unsigned *taken)
{
    static uint8_t file[HTM_FILE_BYTES];
    static struct sky_piece pieces[SKY_PIECES];
    struct cost t = {0};
    state = 36;
    for (int i = 0; i < TRIALS; i++) {
        struct centre c = anywhere();
        size_t bytes = (size_t)sky_cone(c.ra, c.dec, radius, depth, budget, file, sizeof file);
        double least = 1e9, all = pow(sin(radius * DEGREE / 2), 2) * 33554432;
        int64_t count = 0;
        for (int k = 0; k < 3; k++) {
            double start = now();
            count = sky_pieces(file, bytes, pieces, SKY_PIECES);
            least = fmin(least, now() - start);
        }
        *taken = file[4];
        t.us += least / TRIALS;
        for (int64_t k = 0; k < count; k++)
            t.identifiers += pieces[k].inner ? 0 : (double)(pieces[k].high - pieces[k].low + 1) / all / TRIALS;
    }
    return t;
}

static void print_depths(void)
{
    static const double sizes[] = {0.25, 1, 2, 3, 5, 10, 20, 30, 60, 90};
    static const uint32_t budgets[] = {16, 64, 256};
    printf("\nPieces of a cone, at the chosen depth and at depth 12: µs, identifiers to be tested beside those of the cone's area\n\n");
    printf("| radius | budget 16 | depth 12 | budget 64 | depth 12 | budget 256 | depth 12 |\n|---|---|---|---|---|---|---|\n");
    for (size_t i = 0; i < sizeof sizes / sizeof sizes[0]; i++) {
        printf("| %g° |", sizes[i]);
        for (size_t k = 0; k < 3; k++) {
            unsigned taken, deepest;
            struct cost a = cost_of_depth(sizes[i], SKY_CHOOSE_DEPTH, budgets[k], &taken), b = cost_of_depth(sizes[i], 12, budgets[k], &deepest);
            printf(" depth %u: %.0f, %.2f | %.0f, %.2f |", taken, a.us, a.identifiers, b.us, b.identifiers);
        }
        printf("\n");
    }
}

int main(void)
{
    print_ways();
    print_sides();
    print_depths();
    return 0;
}
