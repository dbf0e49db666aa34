/* Columns of rows: each row by the call for one row. */
#include "htm_sky.h"

int64_t sky_pointing_all(const double *ra, const double *dec, size_t n, int32_t *x, int32_t *y, int32_t *z)
{
    int64_t bad = 0;
    for (size_t i = 0; i < n; i++) {
        int32_t p[3] = {0, 0, 0};
        bad += sky_pointing(ra[i], dec[i], p) < 0;
        x[i] = p[0];
        y[i] = p[1];
        z[i] = p[2];
    }
    return bad;
}

int64_t sky_lookup_all(const double *ra, const double *dec, size_t n, uint32_t depth, int64_t *out)
{
    int64_t bad = 0;
    for (size_t i = 0; i < n; i++) {
        out[i] = sky_lookup(ra[i], dec[i], depth);
        bad += out[i] < 0;
    }
    return bad;
}

/* The point test of a true pointing, the north pole, is refused for the file's sake only. */
int64_t sky_holds_all(const uint8_t *file, size_t bytes, const int32_t *x, const int32_t *y, const int32_t *z, size_t n, int8_t *out)
{
    int64_t bad = htm_holds(file, bytes, 0, 0, HTM_K);
    if (bad < 0)
        return bad;
    bad = 0;
    for (size_t i = 0; i < n; i++) {
        out[i] = (int8_t)htm_holds(file, bytes, x[i], y[i], z[i]);
        bad += out[i] < 0;
    }
    return bad;
}
