/* The SQLite extension, loaded into SQLite's library: every function with good and with bad input, and searches of 300,000 frames in two kinds
 * of table. They are compared with a test of every frame, by htm_holds or in plain C, n.p >= d*K; with floats; and of 1024 frames with
 * htm_frames. Ends with 1 where anything differs. */
#define _POSIX_C_SOURCE 199309L
#include <inttypes.h>
#include <math.h>
#include <stdarg.h>
#include <stdbool.h>
#include <stdint.h>
#include <stdio.h>
#include <stdlib.h>
#include <string.h>
#include <time.h>

#include <sqlite3.h>

#include "htm.h"

#define K HTM_K
#define FRAMES 300000
#define PI 3.14159265358979323846264338327950288L
#define DEGREE (PI / 180)
#define MOST_CORNERS 8
#define SHARE HTM_NUMBERS_LENGTH /* frames of one owner in an index */
#define RANDOM 60        /* random regions */
#define MOST_ROWS 20     /* of a random region */

static sqlite3 *db;
static long failures;

static void expect(bool good, const char *format, ...)
{
    va_list list;
    if (good || failures++ >= 20)
        return;
    va_start(list, format);
    printf("wrong: ");
    vprintf(format, list);
    printf("\n");
    va_end(list);
}

static void die(const char *what)
{
    fprintf(stderr, "%s: %s\n", what, db ? sqlite3_errmsg(db) : "");
    exit(1);
}

static void run(const char *sql)
{
    if (sqlite3_exec(db, sql, NULL, NULL, NULL) != SQLITE_OK)
        die(sql);
}

static double now(void)
{
    struct timespec t;
    clock_gettime(CLOCK_PROCESS_CPUTIME_ID, &t); /* others may work beside it */
    return 1e3 * (double)t.tv_sec + 1e-6 * (double)t.tv_nsec;
}

/* ---- what functions answer: the first column of the first row, or the message of the error */

static void ask(const char *sql, const char *want)
{
    char got[600] = "no row";
    sqlite3_stmt *s = NULL;
    int rc = sqlite3_prepare_v2(db, sql, -1, &s, NULL);
    if (rc == SQLITE_OK)
        rc = sqlite3_step(s);
    if (rc == SQLITE_ROW)
        snprintf(got, sizeof got, "%s", sqlite3_column_type(s, 0) == SQLITE_NULL ? "NULL" : (const char *)sqlite3_column_text(s, 0));
    else if (rc != SQLITE_DONE)
        snprintf(got, sizeof got, "error: %s", sqlite3_errmsg(db));
    sqlite3_finalize(s);
    expect(strcmp(got, want) == 0, "%s\n    gives %s\n    not   %s", sql, got, want);
}

#define HEMISPHERE "htm_region(2, 5, 0, 0, 0, 1048576, 0)"
#define THREES "3333333333333333333333333333333"
#define ZEROS "0000000000000000000000000000000"

static const struct {
    const char *sql, *want;
} good[] = {
    {"htm_lookup(0, 0, 1048576)", "63963136"},
    {"htm_lookup(0, 0, 1048576, 1)", "15"},
    {"htm_lookup(605396, 605396, 605396, 12)", "67108863"},
    {"htm_lookup_degrees(0, 90)", "63963136"},
    {"htm_lookup_degrees(0.0, 90.0, 1)", "15"},
    {"htm_lookup_degrees(360, 0) = htm_lookup(1048576, 0, 0)", "1"},
    {"htm_lookup_degrees(-90, 0, 5) = htm_lookup(0, -1048576, 0, 5)", "1"},
    {"htm_name(8)", "S0"},
    {"htm_name(67108863)", "N333333333333"},
    {"htm_identifier('S0')", "8"},
    {"htm_identifier('N333333333333')", "67108863"},
    {"htm_identifier(htm_name(4611686018427387903))", "4611686018427387903"},
    {"htm_identifier('N" THREES "')", "-1"},
    {"htm_name(-1)", "N" THREES},
    {"htm_identifier('S" ZEROS "')", "-9223372036854775808"},
    {"htm_name(-9223372036854775807 - 1)", "S" ZEROS},
    {"typeof(htm_identifier('S0')) || typeof(htm_name(8)) || typeof(htm_cone(0, 0, 1))", "integertextblob"},
    {"hex(" HEMISPHERE ")", "080001000200050004000200140003000000000000000000000010000000000004000400"},
    {"htm_holds(" HEMISPHERE ", 0, 0, 1048576)", "1"},
    {"htm_holds(" HEMISPHERE ", 0, 0, -1048576)", "0"},
    {"htm_holds(" HEMISPHERE ", 1048576, 0, 0)", "1"},
    {"htm_holds_degrees(" HEMISPHERE ", 17, -1)", "0"},
    {"htm_holds_degrees(htm_cone(10, 20, 1), 10, 20)", "1"},
    {"htm_holds_degrees(htm_cone(10, 20, 1), 370 - 720, 21)", "1"},
    {"htm_holds_degrees(htm_cone(10, 20, 1), 10, 21.01)", "0"},
    {"htm_holds_degrees(htm_cone(0, 0, 180), 180, 0)", "1"},
    {"length(htm_cone(10, 20, 1))", "676"},
    {"length(htm_cone(10, 20, 5))", "36"},
    {"hex(substr(htm_cone(10, 20, 5, 7, 9), 5, 4))", "07000900"},
    {"hex(substr(htm_cone(10, 20, 5, 7), 5, 4))", "07004000"},
    {"htm_cone(10, 20, 5, 0, 64) = htm_cone(10, 20, 5)", "1"},
    {"length(htm_polygon(0, 0, 10, 0, 10, 10, 0, 10))", "96"},
    {"htm_holds_degrees(htm_polygon(0, 0, 0, 10, 10, 10, 10, 0), 5, 5)", "1"},
    {"htm_holds_degrees(htm_polygon(0, 0, 0, 10, 10, 10, 10, 0), 5, -0.001)", "0"},
    {"(SELECT group_concat(kind || ' ' || htm_name(low / 1048576) || ' ' || htm_name(high / 1048576), ', ') FROM htm_ranges(" HEMISPHERE "))",
     "test S00 S00, test S02 S10, test S12 S20, test S22 S30, test S32 N00, inner N01 N01, test N02 N10, inner N11 N11, test N12 N20, "
     "inner N21 N21, test N22 N30, inner N31 N31, test N32 N33"},
    {"(SELECT typeof(kind) || typeof(low) || typeof(high) || (region = " HEMISPHERE ") FROM htm_ranges(" HEMISPHERE "))", "textintegerinteger1"},
    {"(SELECT low || ' ' || high FROM htm_ranges(htm_cone(0, 0, 180)))", "33554432 67108863"},
    {"(SELECT count(*) FROM htm_ranges(htm_region(9, 64, 0, 1048576, 0, 0, 908093, 0, 0, 1048576, 0, 908093)))", "0"},
    {"(SELECT count(*) FROM htm_ranges(NULL))", "0"},
    {"(SELECT min(low) FROM htm_ranges WHERE region = " HEMISPHERE ")", "33554432"},
};

#define NO_RA "the right ascension is not a number from -360 to 360"
#define NO_DEC "the declination is not a number from -90 to 90"
#define NO_VECTOR "refused 8 (vector): a direction or a point that is no pointing"
#define NO_DEPTH "refused 5 (depth): not from 1 to 12"
#define NO_NAME "refused 11 (name): no name or identifier"
#define NO_ORDER "refused 4 (order): records or rows are out of order, or missing"
#define NO_CONVEX "the corners do not go around a convex polygon once"

static const struct {
    const char *sql, *want;
} bad[] = {
    {"htm_lookup('1', 0, 0)", "htm_lookup: argument 1 (x): an integer is expected, not text"},
    {"htm_lookup(0, 1.0, 1048576)", "htm_lookup: argument 2 (y): an integer is expected, not a real"},
    {"htm_lookup(0, 0, x'00')", "htm_lookup: argument 3 (z): an integer is expected, not a blob"},
    {"htm_lookup(0, 0, 1048576, '12')", "htm_lookup: argument 4 (depth): an integer is expected, not text"},
    {"htm_lookup(0, 0, 1048576, -1)", "htm_lookup: argument 4 (depth): negative"},
    {"htm_lookup(0, 0, 1048576, 0)", "htm_lookup: " NO_DEPTH},
    {"htm_lookup(0, 0, 1048576, 13)", "htm_lookup: " NO_DEPTH},
    {"htm_lookup(0, 0, 1048576, 4294967308)", "htm_lookup: " NO_DEPTH},
    {"htm_lookup(1, 2, 3)", "htm_lookup: " NO_VECTOR},
    {"htm_lookup(4294967296, 0, 1048576)", "htm_lookup: " NO_VECTOR},
    {"htm_lookup(0, 0, 9223372036854775807)", "htm_lookup: " NO_VECTOR},
    {"htm_lookup(0, 0, 9223372036854775808)", "htm_lookup: argument 3 (z): an integer is expected, not a real"},
    {"htm_lookup(1, 2)", "wrong number of arguments to function htm_lookup()"},
    {"htm_lookup_degrees('10', 20)", "htm_lookup_degrees: argument 1 (ra): a number is expected, not text"},
    {"htm_lookup_degrees(10, x'20')", "htm_lookup_degrees: argument 2 (dec): a number is expected, not a blob"},
    {"htm_lookup_degrees(0, 0, 12.0)", "htm_lookup_degrees: argument 3 (depth): an integer is expected, not a real"},
    {"htm_lookup_degrees(360.001, 0)", "htm_lookup_degrees: " NO_RA},
    {"htm_lookup_degrees(9e999, 0)", "htm_lookup_degrees: " NO_RA},
    {"htm_lookup_degrees(0, -90.001)", "htm_lookup_degrees: " NO_DEC},
    {"htm_lookup_degrees(0, 0, 0)", "htm_lookup_degrees: " NO_DEPTH},
    {"htm_name(0)", "htm_name: " NO_NAME},
    {"htm_name(7)", "htm_name: " NO_NAME},
    {"htm_name(16)", "htm_name: " NO_NAME},
    {"htm_name(18446744073709551615)", "htm_name: argument 1 (identifier): an integer is expected, not a real"},
    {"htm_name('8')", "htm_name: argument 1 (identifier): an integer is expected, not text"},
    {"htm_identifier('')", "htm_identifier: " NO_NAME},
    {"htm_identifier('N')", "htm_identifier: " NO_NAME},
    {"htm_identifier('N4')", "htm_identifier: " NO_NAME},
    {"htm_identifier('n0')", "htm_identifier: " NO_NAME},
    {"htm_identifier(' N0')", "htm_identifier: " NO_NAME},
    {"htm_identifier('N0' || char(0))", "htm_identifier: " NO_NAME},
    {"htm_identifier('N0" THREES "')", "htm_identifier: " NO_NAME},
    {"htm_identifier(8)", "htm_identifier: argument 1 (name): text is expected, not an integer"},
    {"htm_identifier(x'4e30')", "htm_identifier: argument 1 (name): text is expected, not a blob"},
    {"htm_holds('N0', 0, 0, 1048576)", "htm_holds: argument 1 (region): a region, which is a blob, is expected, not text"},
    {"htm_holds(x'', 0, 0, 1048576)", "htm_holds: refused 2 (torn): a record of the region file does not fit what is left of it"},
    {"htm_holds(zeroblob(10509), 0, 0, 1048576)", "htm_holds: refused 1 (long): the region file has more than 10508 bytes"},
    {"htm_holds(substr(" HEMISPHERE ", 1, 35), 0, 0, 1048576)",
     "htm_holds: refused 2 (torn): a record of the region file does not fit what is left of it"},
    {"htm_holds(" HEMISPHERE ", 1, 2, 3)", "htm_holds: " NO_VECTOR},
    {"htm_holds(" HEMISPHERE ", 0.0, 0, 1048576)", "htm_holds: argument 2 (x): an integer is expected, not a real"},
    {"htm_holds(" HEMISPHERE ", 0, 0, 1048576 + 4294967296)", "htm_holds: " NO_VECTOR},
    {"htm_holds_degrees(1, 0, 0)", "htm_holds_degrees: argument 1 (region): a region, which is a blob, is expected, not an integer"},
    {"htm_holds_degrees(" HEMISPHERE ", 'ra', 0)", "htm_holds_degrees: argument 2 (ra): a number is expected, not text"},
    {"htm_holds_degrees(" HEMISPHERE ", 0, 91)", "htm_holds_degrees: " NO_DEC},
    {"htm_cone('0', 0, 1)", "htm_cone: argument 1 (ra): a number is expected, not text"},
    {"htm_cone(0, 0, '1')", "htm_cone: argument 3 (radius): a number is expected, not text"},
    {"htm_cone(400, 0, 1)", "htm_cone: " NO_RA},
    {"htm_cone(0, 91, 1)", "htm_cone: " NO_DEC},
    {"htm_cone(0, 0, -0.1)", "htm_cone: the radius is not a number from 0 to 180"},
    {"htm_cone(0, 0, 180.1)", "htm_cone: the radius is not a number from 0 to 180"},
    {"htm_cone(0, 0, 1, 13)", "htm_cone: " NO_DEPTH},
    {"htm_cone(0, 0, 1, -1)", "htm_cone: argument 4 (depth): negative"},
    {"htm_cone(0, 0, 1, 12, 2049)", "htm_cone: refused 6 (budget): over 2048"},
    {"htm_cone(0, 0, 1, 12, 4294967360)", "htm_cone: refused 6 (budget): over 2048"},
    {"htm_cone(0, 0, 1, 12, -64)", "htm_cone: argument 5 (budget): negative"},
    {"htm_cone(0, 0, 1, 12, 64.0)", "htm_cone: argument 5 (budget): an integer is expected, not a real"},
    {"htm_cone(0, 0)", "wrong number of arguments to function htm_cone()"},
    {"htm_polygon()", "htm_polygon: a polygon has at least 3 corners"},
    {"htm_polygon(0, 0, 1, 1)", "htm_polygon: a polygon has at least 3 corners"},
    {"htm_polygon(0, 0, 1)", "htm_polygon: ra and dec of each corner are expected, not an odd number of arguments"},
    {"htm_polygon(0, 0, 1, 0, '1', 1)", "htm_polygon: argument 5: a number is expected, not text"},
    {"htm_polygon(0, 0, 1, 0, 1, 91)", "htm_polygon: " NO_DEC},
    {"htm_polygon(0, 0, 1, 0, 1, 0)",
     "htm_polygon: two corners in a row are the same, opposite, or closer than 0.2 seconds of arc"},
    {"htm_polygon(0, 0, 10, 5, 0, 10, 3, 5)", "htm_polygon: " NO_CONVEX},
    {"htm_region()", "htm_region: depth, budget and rows of five numbers are expected"},
    {"htm_region(2)", "htm_region: depth, budget and rows of five numbers are expected"},
    {"htm_region(2, 5)", "htm_region: " NO_ORDER},
    {"htm_region(2, 5, 0, 0, 0, 1048576)", "htm_region: " NO_ORDER},
    {"htm_region(2, 5, 1, 0, 0, 1048576, 0)", "htm_region: " NO_ORDER},
    {"htm_region(2, 5, 4294967296, 0, 0, 1048576, 0)", "htm_region: " NO_ORDER},
    {"htm_region(2, 5, 0, 0, 0, 5, 0)", "htm_region: " NO_VECTOR},
    {"htm_region(2, 5, 0, 0, 0, 1048576, 1048577)", "htm_region: refused 9 (offset): not from -1048576 to 1048576"},
    {"htm_region(2, 5, 0, 0, 0, 1048576, 0.5)", "htm_region: argument 7: an integer is expected, not a real"},
    {"htm_region('2', 5, 0, 0, 0, 1048576, 0)", "htm_region: argument 1 (depth): an integer is expected, not text"},
    {"htm_region(13, 5, 0, 0, 0, 1048576, 0)", "htm_region: " NO_DEPTH},
    {"htm_region(2, 2049, 0, 0, 0, 1048576, 0)", "htm_region: refused 6 (budget): over 2048"},
    {"(SELECT low FROM htm_ranges)", "htm_ranges: a region is expected: htm_ranges(region)"},
    {"(SELECT low FROM htm_ranges('N0'))", "htm_ranges: argument 1 (region): a region, which is a blob, is expected, not text"},
    {"(SELECT low FROM htm_ranges(15))", "htm_ranges: argument 1 (region): a region, which is a blob, is expected, not an integer"},
    {"(SELECT low FROM htm_ranges(x''))", "htm_ranges: refused 2 (torn): a record of the region file does not fit what is left of it"},
};

/* Each function with NULL in each place. */
static const char *const calls[][7] = {
    {"htm_lookup", "0", "0", "1048576"},
    {"htm_lookup", "0", "0", "1048576", "12"},
    {"htm_lookup_degrees", "10", "20"},
    {"htm_lookup_degrees", "10", "20", "12"},
    {"htm_name", "8"},
    {"htm_identifier", "'N0'"},
    {"htm_holds", HEMISPHERE, "0", "0", "1048576"},
    {"htm_holds_degrees", HEMISPHERE, "10", "20"},
    {"htm_cone", "10", "20", "1"},
    {"htm_cone", "10", "20", "1", "12"},
    {"htm_cone", "10", "20", "1", "12", "64"},
    {"htm_polygon", "0", "0", "1", "0", "1", "1"},
};

static void ask_null(const char *const *call)
{
    int n = 0;
    while (n < 6 && call[n + 1])
        n++;
    for (int null = 1; null <= n; null++) {
        char sql[300];
        int at = snprintf(sql, sizeof sql, "SELECT %s(", call[0]);
        for (int i = 1; i <= n; i++)
            at += snprintf(sql + at, sizeof sql - (size_t)at, "%s%s", i > 1 ? ", " : "", i == null ? "NULL" : call[i]);
        snprintf(sql + at, sizeof sql - (size_t)at, ")");
        ask(sql, "NULL");
    }
}

static long test_functions(void)
{
    char sql[400], want[400];
    long asked = 0;
    for (size_t i = 0; i < sizeof good / sizeof good[0]; i++, asked++) {
        snprintf(sql, sizeof sql, "SELECT %s", good[i].sql);
        ask(sql, good[i].want);
    }
    for (size_t i = 0; i < sizeof bad / sizeof bad[0]; i++, asked++) {
        snprintf(sql, sizeof sql, "SELECT %s", bad[i].sql);
        snprintf(want, sizeof want, "error: %s", bad[i].want);
        ask(sql, want);
    }
    for (size_t i = 0; i < sizeof calls / sizeof calls[0]; i++, asked++)
        ask_null(calls[i]);
    ask("SELECT htm_region(2, NULL, 0, 0, 0, 1048576, 0)", "NULL");
    ask("SELECT htm_region(2, 5, 0, 0, 0, NULL, 0)", "NULL");
    return asked + 2;
}

/* ---- frames */

struct frame {
    double ra, dec;
    long double u[3];
    int32_t p[3];
};

static struct frame frames[FRAMES];

/* splitmix64: from 0 to 1 */
static long double draw(void)
{
    static uint64_t state = 36;
    uint64_t n = state += 0x9e3779b97f4a7c15;
    n = (n ^ (n >> 30)) * 0xbf58476d1ce4e5b9;
    n = (n ^ (n >> 27)) * 0x94d049bb133111eb;
    return (long double)((n ^ (n >> 31)) >> 11) / 9007199254740992;
}

static void direction(double ra, double dec, long double u[3])
{
    long double a = ra * DEGREE, d = dec * DEGREE;
    u[0] = cosl(d) * cosl(a);
    u[1] = cosl(d) * sinl(a);
    u[2] = sinl(d);
}

static void place_anywhere(struct frame *f)
{
    f->ra = (double)(360 * draw());
    f->dec = (double)(asinl(2 * draw() - 1) / DEGREE);
}

/* Close to a place where some of the regions are. */
static void place_close(struct frame *f)
{
    static const double centres[][2] = {{45, 35}, {0, 90}, {200, -90}, {0, 0}, {360, 12}, {123.456, -54.321}};
    static const long double spreads[] = {8 / 3600.0L, 1.2L / 60, 6 / 60.0L, 0.3L, 1.3L, 6};
    const double *c = centres[(int)(6 * draw())];
    long double r = spreads[(int)(6 * draw())] * sqrtl(draw()) * DEGREE, t = 2 * PI * draw(), a = c[0] * DEGREE, d = c[1] * DEGREE;
    long double x = cosl(r) * cosl(d) - sinl(r) * cosl(t) * sinl(d), y = sinl(r) * sinl(t), z = cosl(r) * sinl(d) + sinl(r) * cosl(t) * cosl(d);
    f->ra = (double)((a + atan2l(y, x)) / DEGREE);
    f->dec = (double)(asinl(fmaxl(-1, fminl(1, z))) / DEGREE);
    if (f->ra > 360)
        f->ra -= 360;
}

/* On a plane that some of the regions have: z, x or y is 0, z is K/2 or close to K cos 30, x is y. */
static void place_on_plane(struct frame *f)
{
    static const double heights[] = {0, 30, -30, 60, -60, 85};
    place_anywhere(f);
    if (draw() < 0.5)
        f->dec = heights[(int)(6 * draw())];
    else
        f->ra = 45 * (int)(8 * draw());
}

/* Of twenty frames seventeen are anywhere. */
static void place(struct frame *f)
{
    long double kind = draw();
    if (kind < 0.85)
        place_anywhere(f);
    else if (kind < 0.95)
        place_close(f);
    else
        place_on_plane(f);
}

static void fill(void)
{
    sqlite3_stmt *s;
    run("CREATE TABLE frames (htm INTEGER NOT NULL, number INTEGER NOT NULL, ra REAL, dec REAL, x INTEGER, y INTEGER, z INTEGER,"
        " PRIMARY KEY (htm, number)) WITHOUT ROWID;"
        "CREATE TABLE raw (number INTEGER PRIMARY KEY, ra REAL, dec REAL, x INTEGER, y INTEGER, z INTEGER, htm INTEGER); BEGIN");
    if (sqlite3_prepare_v2(db, "INSERT INTO raw VALUES (?, ?, ?, ?, ?, ?, htm_lookup_degrees(?2, ?3))", -1, &s, NULL) != SQLITE_OK)
        die("insert");
    for (int i = 0; i < FRAMES; i++) {
        struct frame *f = &frames[i];
        place(f);
        direction(f->ra, f->dec, f->u);
        sqlite3_bind_int(s, 1, i);
        sqlite3_bind_double(s, 2, f->ra);
        sqlite3_bind_double(s, 3, f->dec);
        for (int k = 0; k < 3; k++) {
            f->p[k] = (int32_t)lroundl(K * f->u[k]);
            sqlite3_bind_int(s, 4 + k, f->p[k]);
        }
        if (sqlite3_step(s) != SQLITE_DONE)
            die("insert");
        sqlite3_reset(s);
    }
    sqlite3_finalize(s);
    run("INSERT INTO frames SELECT htm, number, ra, dec, x, y, z FROM raw ORDER BY htm, number; CREATE INDEX raw_htm ON raw (htm); COMMIT");
    ask("SELECT count(*) FROM raw WHERE htm <> htm_lookup(x, y, z)", "0");
}

/* ---- regions */

/* A cone has a radius, a polygon corners; what has neither is known by its rows only. */
struct shape {
    const char *name, *sql;
    double ra, dec, radius;
    int corners;
    double at[2 * MOST_CORNERS];
};

#define CONE(name, ra, dec, radius) {name, "htm_cone(" #ra ", " #dec ", " #radius ")", ra, dec, radius, 0, {0}}
#define SET_CONE(name, ra, dec, radius, set) {name, "htm_cone(" #ra ", " #dec ", " #radius ", " set ")", ra, dec, radius, 0, {0}}
#define POLYGON(name, n, ...) {name, "htm_polygon(" #__VA_ARGS__ ")", 0, 0, -1, n, {__VA_ARGS__}}
#define ROWS(name, list) {name, "htm_region(" list ")", 0, 0, -1, 0, {0}}

static const struct shape shapes[] = {
    CONE("10 seconds", 45, 35, 10.0 / 3600),
    CONE("10 seconds, north pole", 77, 90, 10.0 / 3600),
    CONE("10 seconds, right ascension 0", 0, 0, 10.0 / 3600),
    CONE("1 minute", 123.456, -54.321, 1.0 / 60),
    CONE("1 minute, right ascension 360", 360, 12, 1.0 / 60),
    CONE("5 minutes", 45, 35, 5.0 / 60),
    CONE("5 minutes, south pole", 0, -90, 5.0 / 60),
    CONE("a quarter degree", 123.456, -54.321, 0.25),
    CONE("1 degree", 45, 35, 1),
    CONE("1 degree, right ascension 0", 0, 0, 1),
    CONE("1 degree, beside the pole", 150, 89.5, 1),
    CONE("2 degrees", 123.456, -54.321, 2),
    CONE("5 degrees", 45, 35, 5),
    CONE("5 degrees, right ascension 359.9", 359.9, 12, 5),
    CONE("10 degrees", 200, 5, 10),
    CONE("30 degrees", 200, 5, 30),
    CONE("60 degrees", -100, -40, 60),
    CONE("90 degrees", 45, 35, 90),
    CONE("120 degrees", 45, 35, 120),
    CONE("180 degrees", 45, 35, 180),
    SET_CONE("30 degrees, budget 16", 200, 5, 30, "0, 16"),
    SET_CONE("30 degrees, budget 256", 200, 5, 30, "0, 256"),
    SET_CONE("30 degrees, budget 1024", 200, 5, 30, "0, 1024"),
    SET_CONE("5 degrees, depth 4, budget 5", 45, 35, 5, "4, 5"),
    SET_CONE("5 degrees, depth 12, budget 2048", 45, 35, 5, "12, 2048"),
    SET_CONE("30 degrees, depth 12, budget 1", 45, 35, 30, "12, 1"),
    POLYGON("square, 12 minutes", 4, 44.9, 34.9, 45.1, 34.9, 45.1, 35.1, 44.9, 35.1),
    POLYGON("square, 10 degrees, clockwise", 4, 40, 30, 40, 40, 50, 40, 50, 30),
    POLYGON("triangle around the pole", 3, 0, 85, 120, 80, 240, 70),
    POLYGON("over right ascension 0", 6, 358, -1, 1, -2, 3, 0, 2, 2, 0, 2.5, -2, 1),
    POLYGON("narrow", 4, 120, -54, 127, -54.6, 127, -54.61, 120, -54.01),
    POLYGON("between two meridians", 4, 0, 0, 0, 90, 30, 0, 0, -90),
    ROWS("ring, 5 to 30 degrees", "9, 64, 0, 605396, 605396, 605396, 908093, 0, -605396, -605396, -605396, -1044586"),
    ROWS("square with a hole", "10, 64, 0, 254317, 1017268, 0, 0, 0, 254317, -1017268, 0, 0, 0, 254317, 0, 1017268, 0, 0, 254317, 0, -1017268, 0,"
                               " 0, -1048576, 0, 0, -1044586"),
    ROWS("z from K/2 on", "9, 64, 0, 0, 0, 1048576, 524288"),
    ROWS("a slice, z from K/2 to K/2 + 2", "12, 64, 0, 0, 0, 1048576, 524288, 0, 0, 0, -1048576, -524290"),
    ROWS("the equator: two halfspaces", "7, 64, 0, 0, 0, 1048576, 0, 0, 0, 0, -1048576, 0"),
    ROWS("x from y on", "6, 16, 0, 741455, -741455, 0, 0"),
    ROWS("all but 5 degrees", "8, 64, 0, 0, -1048576, 0, -1044586"),
    ROWS("octant and a cap that overlap", "8, 64, 0, 1048576, 0, 0, 0, 0, 0, 1048576, 0, 0, 0, 0, 0, 1048576, 0, 1, 605396, 605396, 605396, 908093"),
    ROWS("two caps", "8, 16, 0, 0, 0, 1048576, 1044586, 1, 1048576, 0, 0, 1048416"),
    ROWS("nothing", "9, 64, 0, 1048576, 0, 0, 908093, 0, 0, 1048576, 0, 908093"),
};
#define SHAPES (sizeof shapes / sizeof shapes[0])

static long double dot(const long double *a, const long double *b)
{
    return a[0] * b[0] + a[1] * b[1] + a[2] * b[2];
}

/* A shape by floats: the centre of a cone, or the directions of a polygon's sides, which are its in one sense or in the other. */
struct truth {
    int sides;
    long double radius, centre[3], side[MOST_CORNERS][3];
};

static struct truth truth_of(const struct shape *s)
{
    struct truth t = {.sides = s->corners, .radius = s->radius * DEGREE};
    direction(s->ra, s->dec, t.centre);
    for (int i = 0; i < s->corners; i++) {
        int k = (i + 1) % s->corners;
        long double a[3], b[3];
        direction(s->at[2 * i], s->at[2 * i + 1], a);
        direction(s->at[2 * k], s->at[2 * k + 1], b);
        long double n[3] = {a[1] * b[2] - a[2] * b[1], a[2] * b[0] - a[0] * b[2], a[0] * b[1] - a[1] * b[0]};
        for (int m = 0; m < 3; m++)
            t.side[i][m] = n[m] / sqrtl(dot(n, n));
    }
    return t;
}

/* How far inside, in radians: 0 or more is inside. */
static long double inside(const struct truth *t, const struct frame *f, int sense)
{
    long double least = 1, chord[3];
    for (int i = 0; i < t->sides; i++)
        least = fminl(least, sense * dot(t->side[i], f->u));
    if (t->sides)
        return least;
    for (int k = 0; k < 3; k++)
        chord[k] = f->u[k] - t->centre[k];
    return t->radius - 2 * asinl(fminl(1, sqrtl(dot(chord, chord)) / 2));
}

/* How far outside a frame may be that is found: a polygon's side gives 3.74 units, circles 3.5 and the corners between 32 of them, a halfspace
 * 4.47 of its offset. */
static long double slack(const struct truth *t)
{
    if (t->sides)
        return 3.74L / K;
    if (t->radius < 2 * DEGREE)
        return 0.005L * t->radius + 3.6L / K;
    long double cosine = cosl(t->radius) - 4.47L / K;
    return (cosine < -1 ? PI : acosl(cosine)) - t->radius;
}

/* ---- searches */

#define JOIN(table) \
    "SELECT f.number FROM htm_ranges(?1) AS r JOIN " table " AS f ON f.htm BETWEEN r.low AND r.high WHERE r.kind = 'inner' OR htm_holds(?1, f.x, f.y, f.z)"
#define DEGREES_JOIN \
    "SELECT f.number FROM htm_ranges(?1) AS r JOIN raw AS f ON f.htm BETWEEN r.low AND r.high" \
    " WHERE r.kind = 'inner' OR htm_holds_degrees(?1, f.ra, f.dec)"
#define EVERY "SELECT number FROM frames WHERE htm_holds(?1, x, y, z)"
#define IN_TEST "SELECT f.number FROM htm_ranges(?1) AS r JOIN frames AS f ON f.htm BETWEEN r.low AND r.high WHERE r.kind = 'test'"

struct found {
    uint8_t times[FRAMES]; /* how often each number was delivered */
    long count;
    double ms; /* the least of the searches */
};

static struct found every, join, indexed, by_degrees, tested;

static void search(const char *sql, const uint8_t *region, size_t bytes, int times, struct found *to)
{
    sqlite3_stmt *s;
    if (sqlite3_prepare_v2(db, sql, -1, &s, NULL) != SQLITE_OK)
        die(sql);
    to->ms = 1e9;
    for (int i = 0; i < times; i++) {
        int rc;
        memset(to->times, 0, sizeof to->times);
        to->count = 0;
        sqlite3_bind_blob(s, 1, region, (int)bytes, SQLITE_STATIC);
        double start = now();
        while ((rc = sqlite3_step(s)) == SQLITE_ROW) {
            to->times[sqlite3_column_int(s, 0)]++;
            to->count++;
        }
        to->ms = fmin(to->ms, now() - start);
        if (rc != SQLITE_DONE)
            die(sql);
        sqlite3_reset(s);
    }
    sqlite3_finalize(s);
}

static void same(const char *name, const char *what, const struct found *a, const struct found *b)
{
    expect(a->count == b->count && memcmp(a->times, b->times, sizeof a->times) == 0, "%s: %ld frames %s, %ld of a test of every frame", name, a->count, what,
           b->count);
}

/* Every frame that is true by its degrees is there, and what is there besides is close. How many are there besides. */
static long check_truth(const struct shape *s)
{
    struct truth t = truth_of(s);
    long truths[2] = {0, 0}, missed[2] = {0, 0}, far[2] = {0, 0};
    long double most = slack(&t);
    if (s->radius < 0 && s->corners == 0)
        return 0;
    for (int i = 0; i < FRAMES; i++)
        for (int k = 0; k < (t.sides ? 2 : 1); k++) {
            long double in = inside(&t, &frames[i], 1 - 2 * k);
            truths[k] += in >= 0;
            missed[k] += in >= 0 && !join.times[i];
            far[k] += in < -most && join.times[i];
        }
    int k = truths[1] > truths[0]; /* in the wrong sense hardly anything is inside */
    expect(missed[k] == 0, "%s: %ld of %ld true frames are missed", s->name, missed[k], truths[k]);
    expect(far[k] == 0, "%s: %ld frames are far outside", s->name, far[k]);
    return join.count - truths[k];
}

/* Some of the frames once more, in an index: what htm_frames finds of them. Owner 0 has others with the same numbers. */
static int64_t index_list[HTM_INDEX_LENGTH];

static void fill_index(void)
{
    htm_index_begin(index_list, HTM_INDEX_LENGTH);
    for (int i = 0; i < SHARE; i++) {
        const int32_t *p = frames[i].p, *q = frames[FRAMES - 1 - i].p;
        expect(htm_add(index_list, HTM_INDEX_LENGTH, 1, (uint32_t)i, p[0], p[1], p[2]) == 0, "frame %d is not added", i);
        expect(htm_add(index_list, HTM_INDEX_LENGTH, 0, (uint32_t)i, q[0], q[1], q[2]) == 0, "frame %d of the other is not added", i);
    }
}

static void check_index(const char *name, const uint8_t *region, size_t bytes)
{
    static uint64_t lists[HTM_RANGES_LENGTH];
    uint32_t numbers[SHARE];
    uint64_t counts[HTM_FRAME_COUNTS];
    uint8_t times[SHARE] = {0};
    int64_t answer = htm_frames(index_list, HTM_INDEX_LENGTH, 1, region, bytes, lists, HTM_RANGES_LENGTH, numbers, SHARE, counts,
                                HTM_FRAME_COUNTS);
    expect(answer == 0, "%s: htm_frames refuses %" PRId64, name, -answer);
    for (uint64_t i = 0; answer == 0 && i < counts[0]; i++)
        times[numbers[i]]++;
    expect(memcmp(times, join.times, SHARE) == 0, "%s: htm_frames finds other frames", name);
}

static uint8_t *region_of(const char *sql, size_t *bytes)
{
    static uint8_t file[HTM_FILE_BYTES];
    char text[500];
    sqlite3_stmt *s;
    snprintf(text, sizeof text, "SELECT %s", sql);
    if (sqlite3_prepare_v2(db, text, -1, &s, NULL) != SQLITE_OK || sqlite3_step(s) != SQLITE_ROW)
        die(text);
    *bytes = (size_t)sqlite3_column_bytes(s, 0);
    memcpy(file, sqlite3_column_blob(s, 0), *bytes);
    sqlite3_finalize(s);
    return file;
}

static void try_shape(const struct shape *s)
{
    size_t bytes;
    const uint8_t *region = region_of(s->sql, &bytes);
    search(EVERY, region, bytes, 1, &every);
    search(JOIN("frames"), region, bytes, 3, &join);
    search(JOIN("raw"), region, bytes, 3, &indexed);
    search(DEGREES_JOIN, region, bytes, 1, &by_degrees);
    search(IN_TEST, region, bytes, 1, &tested);
    same(s->name, "by the join", &join, &every);
    same(s->name, "by the join with an index", &indexed, &every);
    same(s->name, "by degrees", &by_degrees, &every);
    check_index(s->name, region, bytes);
    long beyond = check_truth(s);
    printf("%-34s %7ld %7ld %7ld %9.3f %9.3f %9.1f\n", s->name, join.count, beyond, tested.count, join.ms, indexed.ms, every.ms);
}

/* ---- random regions, in whole numbers */

static long on_planes;

static bool rows_hold(const int32_t *rows, size_t count, const int32_t *p)
{
    bool any = false, all = true;
    for (size_t i = 0; i < count; i++) {
        const int32_t *r = rows + 5 * i;
        if (i > 0 && r[0] != r[-5]) { /* a convex begins */
            any = any || all;
            all = true;
        }
        int64_t product = (int64_t)r[1] * p[0] + (int64_t)r[2] * p[1] + (int64_t)r[3] * p[2], limit = (int64_t)r[4] * K;
        all = all && product >= limit;
        on_planes += product == limit;
    }
    return any || all;
}

/* Directions of frames, so that they are pointings; offsets of all sizes, and planes that frames are on. */
static size_t random_rows(int32_t *rows)
{
    static const int32_t axes[][3] = {{0, 0, K}, {0, 0, -K}, {K, 0, 0}, {0, -K, 0}, {741455, -741455, 0}};
    static const int32_t offsets[] = {0, 0, 524288, -524288, 908093, -908093, 1044586, -1044586};
    size_t count = 0;
    int convexes = 1 + (int)(5 * draw());
    for (int convex = 0; convex < convexes; convex++)
        for (int k = 1 + (int)(4 * draw()); k > 0; k--) {
            bool axis = draw() < 0.4;
            int32_t *row = rows + 5 * count++;
            row[0] = convex;
            memcpy(row + 1, axis ? axes[(int)(5 * draw())] : frames[(int)(FRAMES * draw())].p, 3 * sizeof row[0]);
            row[4] = draw() < 0.5 ? offsets[(int)(8 * draw())] : (int32_t)(K * (2 * draw() - 1));
        }
    return count;
}

static void try_random(int number)
{
    static const uint32_t budgets[] = {0, 1, 5, 16, 64, 300, HTM_MAX_BUDGET};
    static uint8_t file[HTM_FILE_BYTES];
    int32_t rows[5 * MOST_ROWS];
    char name[40];
    size_t count = random_rows(rows);
    uint32_t depth = 1 + (uint32_t)(number % HTM_MAX_DEPTH), budget = budgets[(int)(7 * draw())];
    int64_t bytes = htm_write(depth, budget, rows, 5 * count, file, sizeof file);
    snprintf(name, sizeof name, "random region %d", number);
    if (bytes < 0) {
        expect(false, "%s is refused %" PRId64, name, -bytes);
        return;
    }
    memset(&every, 0, sizeof every);
    for (int i = 0; i < FRAMES; i++)
        every.count += every.times[i] = rows_hold(rows, count, frames[i].p);
    search(JOIN("frames"), file, (size_t)bytes, 1, &join);
    same(name, "by the join", &join, &every);
    check_index(name, file, (size_t)bytes);
}

/* ---- plans */

/* EXPLAIN QUERY PLAN says so of a search. */
static void check_plan(const char *sql, const char *want)
{
    char text[800], got[400] = "";
    sqlite3_stmt *s;
    snprintf(text, sizeof text, "EXPLAIN QUERY PLAN %s", sql);
    if (sqlite3_prepare_v2(db, text, -1, &s, NULL) != SQLITE_OK)
        die(text);
    while (sqlite3_step(s) == SQLITE_ROW)
        snprintf(got + strlen(got), sizeof got - strlen(got), "%s; ", (const char *)sqlite3_column_text(s, 3));
    sqlite3_finalize(s);
    expect(strstr(got, want) && !strstr(got, "TEMP B-TREE"), "the plan of %s\n    is %s\n    without %s", sql, got, want);
}

static void check_plans(void)
{
    const char *clustered = "USING PRIMARY KEY (htm>? AND htm<?)", *by_index = "USING INDEX raw_htm (htm>? AND htm<?)";
    check_plan(JOIN("frames"), clustered);
    check_plan(JOIN("raw"), by_index);
    check_plan(DEGREES_JOIN, by_index);
    check_plan("SELECT f.number FROM frames f, htm_ranges(htm_cone(1, 2, 3)) r WHERE f.htm BETWEEN r.low AND r.high", clustered);
    check_plan("SELECT * FROM htm_ranges(htm_cone(1, 2, 3)) ORDER BY low", "VIRTUAL TABLE INDEX 1:");
}

/* Regions that are a column of a table, all in one query. */
static void test_stored_regions(void)
{
    run("CREATE TABLE fields (name TEXT, region BLOB);"
        "INSERT INTO fields VALUES ('a', htm_cone(45, 35, 1)), ('b', htm_polygon(40, 30, 40, 40, 50, 40, 50, 30)), ('c', NULL), ('d', htm_cone(0, 0, 0.2))");
    ask("SELECT (SELECT group_concat(name || ' ' || n, ', ') FROM (SELECT g.name, count(*) AS n FROM fields AS g JOIN htm_ranges(g.region) AS r"
        " JOIN frames AS f ON f.htm BETWEEN r.low AND r.high WHERE r.kind = 'inner' OR htm_holds(g.region, f.x, f.y, f.z) GROUP BY g.name))"
        " = (SELECT group_concat(name || ' ' || n, ', ') FROM (SELECT g.name, count(*) AS n FROM fields AS g CROSS JOIN frames AS f"
        " WHERE htm_holds(g.region, f.x, f.y, f.z) GROUP BY g.name))", "1");
    ask("SELECT count(*) FROM fields AS g JOIN htm_ranges(g.region) AS r WHERE g.name = 'c'", "0");
}

int main(int argc, char **argv)
{
    char *message = NULL;
    if (argc != 2 || sqlite3_open(":memory:", &db) != SQLITE_OK || sqlite3_db_config(db, SQLITE_DBCONFIG_ENABLE_LOAD_EXTENSION, 1, NULL) != SQLITE_OK)
        die("usage: sqlite EXTENSION");
    if (sqlite3_load_extension(db, argv[1], NULL, &message) != SQLITE_OK) {
        fprintf(stderr, "%s\n", message);
        return 1;
    }
    long asked = test_functions();
    double start = now();
    fill();
    printf("%d frames filed in two tables in %.1f s\n", FRAMES, (now() - start) / 1000);
    fill_index();
    check_plans();
    printf("%-34s %7s %7s %7s %9s %9s %9s\n", "region", "frames", "beyond", "tested", "ms", "by index", "every one");
    for (size_t i = 0; i < SHAPES; i++)
        try_shape(&shapes[i]);
    for (int i = 0; i < RANDOM; i++)
        try_random(i);
    expect(on_planes > 1000, "only %ld frames are on a plane of a random region", on_planes);
    test_stored_regions();
    run("ANALYZE");
    check_plans();
    printf("sqlite: SQLite %s; %ld calls, %zu regions and %d random ones in %d frames; %ld wrong\n", sqlite3_libversion(), asked, SHAPES, RANDOM,
           FRAMES, failures);
    sqlite3_close(db);
    return failures ? 1 : 0;
}
