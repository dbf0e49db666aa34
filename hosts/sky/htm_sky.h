/* From degrees to what the library takes: pointings, cones, polygons, and a cover's pieces for a database. This layer is tested, not proved;
 * what it hands to the library is checked there again. Link with libhtm_sky.a or libhtm_sky.so, and with libhtm and -lm.
 *
 * Axes: equatorial coordinates in degrees, right ascension ra from -360 to 360 and declination dec from -90 to 90. x points to ra 0 and
 * dec 0, y to ra 90 and dec 0, z to dec 90, the north pole:
 *     x = K cos(dec) cos(ra),   y = K cos(dec) sin(ra),   z = K sin(dec),   each rounded to the nearest whole number.
 * K is HTM_K, 1048576, so that a direction moves by less than 0.18 seconds of arc when it is rounded.
 *
 * Answers: a call gives 0 or more where it succeeds, -N for refusal N of the library (htm.h), and one of the numbers below where the
 * degrees are wrong. After either, nothing is written. sky_message gives the words. */
#ifndef HTM_SKY_H
#define HTM_SKY_H

#include "htm.h"

#ifdef __cplusplus
extern "C" {
#endif

enum {
    SKY_RA = -101,      /* a right ascension that is not a number from -360 to 360 */
    SKY_DEC = -102,     /* a declination that is not a number from -90 to 90 */
    SKY_RADIUS = -103,  /* a radius that is not a number from 0 to 180 degrees */
    SKY_FEW = -104,     /* a polygon of fewer than three corners */
    SKY_MANY = -105,    /* a polygon of more than 100 corners */
    SKY_CLOSE = -106,   /* two corners in a row that are the same, opposite, or too close to give their side a direction */
    SKY_CONVEX = -107   /* corners that do not go around a convex polygon once, or that are all on one great circle */
};

/* 0 as a depth lets the call choose one by the region's size and the budget. 64 is a good budget for a table in one database. */
#define SKY_CHOOSE_DEPTH 0
#define SKY_BUDGET 64

/* What a code of this layer or of the library says, in a few words; "refused 8 (vector): ..." for a refusal. Never null. */
const char *sky_message(int64_t code);

/* The pointing of a direction: p[0] to p[2] are x, y, z by the formula above. 0, or SKY_RA, then SKY_DEC. */
int64_t sky_pointing(double ra, double dec, int32_t p[3]);

/* The identifier of the trixel of the given depth, 1 to 12, in which the direction lies; or SKY_RA, SKY_DEC, then -HTM_DEPTH. */
int64_t sky_lookup(double ra, double dec, uint32_t depth);

/* A region file of all directions within radius degrees of (ra, dec), from file[0] on: its length. It is one halfspace from 2 degrees on, and
 * below a halfspace and 32 circles. It is padded by just enough that rounding loses no direction within the radius: hosts/sky/README.md
 * has the figures of what it holds beyond. SKY_RA, SKY_DEC, SKY_RADIUS, then a refusal of htm_write. */
int64_t sky_cone(double ra, double dec, double radius, uint32_t depth, uint32_t budget, uint8_t *file, size_t bytes);

/* A region file of a convex polygon with great circles as sides, padded alike; degrees has ra and dec of each corner, in either sense, the
 * last joined to the first. A corner may lie within a side; 0.02 seconds of arc inwards are taken as on it. Of the two parts of the sky
 * that the sides bound it is the convex one, which is smaller than a hemisphere. SKY_FEW, SKY_MANY, then corner by corner SKY_RA, SKY_DEC,
 * then SKY_CLOSE, SKY_CONVEX, then a refusal of htm_write. */
int64_t sky_polygon(const double *degrees, size_t corners, uint32_t depth, uint32_t budget, uint8_t *file, size_t bytes);

/* Ranges of depth-12 identifiers as a database searches them. They ascend and do not overlap. What lies in an inner piece is in the region;
 * what lies in another piece is in it where htm_holds says so; what lies in no piece is not. */
#define SKY_FILED_DEPTH HTM_MAX_DEPTH
#define SKY_PIECES (3 * HTM_MAX_BUDGET)

struct sky_piece {
    uint64_t low, high; /* both in it */
    int inner;          /* 1: all of it is in the region; 0: htm_holds decides */
};

/* The pieces of a region file's cover, from pieces[0] on: how many. A refusal of the file; then -HTM_SPACE where there are more than room
 * (SKY_PIECES are always enough). */
int64_t sky_pieces(const uint8_t *file, size_t bytes, struct sky_piece *pieces, size_t room);

/* Columns of n rows, for hosts in which a call of its own for each row would be slow. Row i gets in out[i], or in x[i], y[i] and z[i], what
 * the call for one row gives; where that is below 0, it stands in out[i], and x[i], y[i] and z[i] are 0, which is no pointing. How many
 * rows got such a number: 0 where all is well. sky_holds_all gives the refusal of the file, and then nothing is written. */
int64_t sky_pointing_all(const double *ra, const double *dec, size_t n, int32_t *x, int32_t *y, int32_t *z);
int64_t sky_lookup_all(const double *ra, const double *dec, size_t n, uint32_t depth, int64_t *out);
int64_t sky_holds_all(const uint8_t *file, size_t bytes, const int32_t *x, const int32_t *y, const int32_t *z, size_t n, int8_t *out);

#ifdef __cplusplus
}
#endif

#endif
