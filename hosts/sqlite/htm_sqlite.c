/* The library as a loadable SQLite extension: trixels, regions from degrees or from rows, and the ranges of a region as a table.
 * docs/DATABASES.md has the functions and a first search. NULL for any argument gives NULL, and no rows of htm_ranges. */
#include <stdint.h>
#include <string.h>

#include <sqlite3ext.h>

#include "htm_sky.h"

SQLITE_EXTENSION_INIT1

#define MOST_CORNERS 100
#define NAMED 5 /* arguments that have a name in messages */

/* A function of SQL. It hangs on its SQLite function as user data, for messages. */
struct function {
    const char *name;
    int least, most; /* how many arguments; most is -1 where any number is taken */
    void (*call)(sqlite3_context *, int, sqlite3_value **);
    const char *arguments[NAMED];
};

/* ---- messages */

static void fail(sqlite3_context *c, const char *message)
{
    const struct function *f = sqlite3_user_data(c);
    char *text = sqlite3_mprintf("%s: %s", f->name, message);
    if (!text) {
        sqlite3_result_error_nomem(c);
        return;
    }
    sqlite3_result_error(c, text, -1);
    sqlite3_free(text);
}

static const char *type_word(sqlite3_value *v)
{
    static const char *const words[] = {"", "an integer", "a real", "text", "a blob", "NULL"};
    return words[sqlite3_value_type(v)];
}

/* "argument 3 (radius): a number is expected, not text", or without the name where it has none. */
static char *wrong_argument(const struct function *f, int i, const char *what)
{
    if (i < NAMED && f->arguments[i])
        return sqlite3_mprintf("argument %d (%s): %s", i + 1, f->arguments[i], what);
    return sqlite3_mprintf("argument %d: %s", i + 1, what);
}

static void fail_argument(sqlite3_context *c, int i, const char *what)
{
    char *text = wrong_argument(sqlite3_user_data(c), i, what);
    fail(c, text ? text : "out of memory");
    sqlite3_free(text);
}

static void fail_type(sqlite3_context *c, sqlite3_value **v, int i, const char *expected)
{
    char *text = sqlite3_mprintf("%s is expected, not %s", expected, type_word(v[i]));
    fail_argument(c, i, text ? text : "of the wrong type");
    sqlite3_free(text);
}

/* ---- arguments: each call says whether there is one as it is wanted, and fails the function where not */

static int any_null(int n, sqlite3_value **v)
{
    for (int i = 0; i < n; i++)
        if (sqlite3_value_type(v[i]) == SQLITE_NULL)
            return 1;
    return 0;
}

/* A number, whole or not. Text is not converted. */
static int number_at(sqlite3_context *c, sqlite3_value **v, int i, double *to)
{
    int type = sqlite3_value_type(v[i]);
    if (type != SQLITE_INTEGER && type != SQLITE_FLOAT) {
        fail_type(c, v, i, "a number");
        return 0;
    }
    *to = sqlite3_value_double(v[i]);
    return 1;
}

static int whole_at(sqlite3_context *c, sqlite3_value **v, int i, int64_t *to)
{
    if (sqlite3_value_type(v[i]) != SQLITE_INTEGER) {
        fail_type(c, v, i, "an integer");
        return 0;
    }
    *to = sqlite3_value_int64(v[i]);
    return 1;
}

/* A component, an offset or a convex number. What 32 bits do not hold becomes the nearest that they hold, which the library refuses. */
static int signed_at(sqlite3_context *c, sqlite3_value **v, int i, int32_t *to)
{
    int64_t n;
    if (!whole_at(c, v, i, &n))
        return 0;
    *to = n > INT32_MAX ? INT32_MAX : n < INT32_MIN ? INT32_MIN : (int32_t)n;
    return 1;
}

/* A depth or a budget; a large one as above. Keeps its value where there is no such argument. */
static int setting_at(sqlite3_context *c, int n, sqlite3_value **v, int i, uint32_t *to)
{
    int64_t number;
    if (i >= n)
        return 1;
    if (!whole_at(c, v, i, &number))
        return 0;
    if (number < 0) {
        fail_argument(c, i, "negative");
        return 0;
    }
    *to = number > UINT32_MAX ? UINT32_MAX : (uint32_t)number;
    return 1;
}

static int pointing_at(sqlite3_context *c, sqlite3_value **v, int i, int32_t p[3])
{
    return signed_at(c, v, i, p) && signed_at(c, v, i + 1, p + 1) && signed_at(c, v, i + 2, p + 2);
}

/* The pointing of ra and dec. */
static int degrees_at(sqlite3_context *c, sqlite3_value **v, int i, int32_t p[3])
{
    double ra, dec;
    if (!number_at(c, v, i, &ra) || !number_at(c, v, i + 1, &dec))
        return 0;
    int64_t bad = sky_pointing(ra, dec, p);
    if (bad)
        fail(c, sky_message(bad));
    return bad == 0;
}

/* The bytes of a blob. SQLite gives a null pointer for an empty one. */
static const uint8_t *bytes_of(sqlite3_value *v, size_t *bytes)
{
    const uint8_t *file = sqlite3_value_blob(v);
    *bytes = file ? (size_t)sqlite3_value_bytes(v) : 0;
    return file;
}

static int region_at(sqlite3_context *c, sqlite3_value **v, int i)
{
    if (sqlite3_value_type(v[i]) == SQLITE_BLOB)
        return 1;
    fail_type(c, v, i, "a region, which is a blob,");
    return 0;
}

/* ---- results */

/* An answer of 0 or more is the result. */
static void give(sqlite3_context *c, int64_t answer)
{
    if (answer < 0)
        fail(c, sky_message(answer));
    else
        sqlite3_result_int64(c, answer);
}

/* The file, by its length, or what the answer says. */
static void give_file(sqlite3_context *c, int64_t answer, const uint8_t *file)
{
    if (answer < 0)
        fail(c, sky_message(answer));
    else
        sqlite3_result_blob64(c, file, (sqlite3_uint64)answer, SQLITE_TRANSIENT);
}

static void give_lookup(sqlite3_context *c, const int32_t p[3], uint32_t depth)
{
    give(c, htm_lookup(p[0], p[1], p[2], depth));
}

static void give_holds(sqlite3_context *c, sqlite3_value *region, const int32_t p[3])
{
    size_t bytes;
    const uint8_t *file = bytes_of(region, &bytes);
    give(c, htm_holds(file, bytes, p[0], p[1], p[2]));
}

/* ---- functions */

static void call_lookup(sqlite3_context *c, int n, sqlite3_value **v)
{
    int32_t p[3];
    uint32_t depth = SKY_FILED_DEPTH;
    if (!any_null(n, v) && pointing_at(c, v, 0, p) && setting_at(c, n, v, 3, &depth))
        give_lookup(c, p, depth);
}

static void call_lookup_degrees(sqlite3_context *c, int n, sqlite3_value **v)
{
    int32_t p[3];
    uint32_t depth = SKY_FILED_DEPTH;
    if (!any_null(n, v) && degrees_at(c, v, 0, p) && setting_at(c, n, v, 2, &depth))
        give_lookup(c, p, depth);
}

/* An identifier of depth 31 has bit 63, and is a negative number in SQL. */
static void call_name(sqlite3_context *c, int n, sqlite3_value **v)
{
    uint8_t name[HTM_NAME_BYTES];
    int64_t id;
    if (any_null(n, v) || !whole_at(c, v, 0, &id))
        return;
    int64_t length = htm_name((uint64_t)id, name, HTM_NAME_BYTES);
    if (length < 0)
        fail(c, sky_message(length));
    else
        sqlite3_result_text(c, (const char *)name, (int)length, SQLITE_TRANSIENT);
}

static void call_identifier(sqlite3_context *c, int n, sqlite3_value **v)
{
    if (any_null(n, v))
        return;
    if (sqlite3_value_type(v[0]) != SQLITE_TEXT) {
        fail_type(c, v, 0, "text");
        return;
    }
    const uint8_t *name = sqlite3_value_text(v[0]);
    uint64_t id = name ? htm_identifier(name, (size_t)sqlite3_value_bytes(v[0])) : 0;
    if (id)
        sqlite3_result_int64(c, (int64_t)id);
    else
        fail(c, sky_message(-HTM_NAME));
}

static void call_holds(sqlite3_context *c, int n, sqlite3_value **v)
{
    int32_t p[3];
    if (!any_null(n, v) && region_at(c, v, 0) && pointing_at(c, v, 1, p))
        give_holds(c, v[0], p);
}

static void call_holds_degrees(sqlite3_context *c, int n, sqlite3_value **v)
{
    int32_t p[3];
    if (!any_null(n, v) && region_at(c, v, 0) && degrees_at(c, v, 1, p))
        give_holds(c, v[0], p);
}

static void call_cone(sqlite3_context *c, int n, sqlite3_value **v)
{
    uint8_t file[HTM_FILE_BYTES];
    double at[3];
    uint32_t depth = SKY_CHOOSE_DEPTH, budget = SKY_BUDGET;
    if (any_null(n, v))
        return;
    for (int i = 0; i < 3; i++)
        if (!number_at(c, v, i, &at[i]))
            return;
    if (setting_at(c, n, v, 3, &depth) && setting_at(c, n, v, 4, &budget))
        give_file(c, sky_cone(at[0], at[1], at[2], depth, budget, file, HTM_FILE_BYTES), file);
}

static void call_polygon(sqlite3_context *c, int n, sqlite3_value **v)
{
    uint8_t file[HTM_FILE_BYTES];
    double degrees[2 * MOST_CORNERS];
    if (any_null(n, v))
        return;
    if (n % 2) {
        fail(c, "ra and dec of each corner are expected, not an odd number of arguments");
        return;
    }
    if (n > 2 * MOST_CORNERS) {
        fail(c, sky_message(SKY_MANY));
        return;
    }
    for (int i = 0; i < n; i++)
        if (!number_at(c, v, i, &degrees[i]))
            return;
    give_file(c, sky_polygon(degrees, (size_t)n / 2, SKY_CHOOSE_DEPTH, SKY_BUDGET, file, HTM_FILE_BYTES), file);
}

static void call_region(sqlite3_context *c, int n, sqlite3_value **v)
{
    uint8_t file[HTM_FILE_BYTES];
    int32_t rows[HTM_ROWS_LENGTH];
    uint32_t depth, budget;
    if (any_null(n, v))
        return;
    if (n < 2) {
        fail(c, "depth, budget and rows of five numbers are expected");
        return;
    }
    if (n - 2 > HTM_ROWS_LENGTH) {
        fail(c, sky_message(-HTM_CROWD));
        return;
    }
    if (!setting_at(c, n, v, 0, &depth) || !setting_at(c, n, v, 1, &budget))
        return;
    for (int i = 2; i < n; i++)
        if (!signed_at(c, v, i, &rows[i - 2]))
            return;
    give_file(c, htm_write(depth, budget, rows, (size_t)n - 2, file, HTM_FILE_BYTES), file);
}

static const struct function functions[] = {
    {"htm_lookup", 3, 4, call_lookup, {"x", "y", "z", "depth"}},
    {"htm_lookup_degrees", 2, 3, call_lookup_degrees, {"ra", "dec", "depth"}},
    {"htm_name", 1, 1, call_name, {"identifier"}},
    {"htm_identifier", 1, 1, call_identifier, {"name"}},
    {"htm_holds", 4, 4, call_holds, {"region", "x", "y", "z"}},
    {"htm_holds_degrees", 3, 3, call_holds_degrees, {"region", "ra", "dec"}},
    {"htm_cone", 3, 5, call_cone, {"ra", "dec", "radius", "depth", "budget"}},
    {"htm_polygon", -1, -1, call_polygon, {0}},
    {"htm_region", -1, -1, call_region, {"depth", "budget"}},
};
#define FUNCTIONS (sizeof functions / sizeof functions[0])

/* ---- the table htm_ranges(region): its pieces, in order */

enum { KIND, LOW, HIGH, REGION };

struct cursor {
    sqlite3_vtab_cursor base; /* first: SQLite knows a cursor by it */
    sqlite3_value *region;
    struct sky_piece *pieces;
    int64_t count, at;
};

static int ranges_connect(sqlite3 *db, void *data, int argc, const char *const *argv, sqlite3_vtab **table, char **message)
{
    (void)data, (void)argc, (void)argv, (void)message;
    int rc = sqlite3_declare_vtab(db, "CREATE TABLE ranges(kind TEXT, low INTEGER, high INTEGER, region HIDDEN)");
    if (rc != SQLITE_OK)
        return rc;
    *table = sqlite3_malloc(sizeof **table);
    if (!*table)
        return SQLITE_NOMEM;
    memset(*table, 0, sizeof **table);
    return sqlite3_vtab_config(db, SQLITE_VTAB_INNOCUOUS);
}

static int ranges_disconnect(sqlite3_vtab *table)
{
    sqlite3_free(table);
    return SQLITE_OK;
}

/* The region must be known before the ranges are: a plan where it is not yet is no plan. The cost of a cover keeps it out of inner loops. */
static int ranges_best_index(sqlite3_vtab *table, sqlite3_index_info *x)
{
    (void)table;
    x->estimatedCost = 10000;
    x->estimatedRows = 150;
    for (int i = 0; i < x->nConstraint; i++) {
        if (x->aConstraint[i].iColumn != REGION || x->aConstraint[i].op != SQLITE_INDEX_CONSTRAINT_EQ)
            continue;
        if (!x->aConstraint[i].usable)
            return SQLITE_CONSTRAINT;
        x->aConstraintUsage[i].argvIndex = 1;
        x->aConstraintUsage[i].omit = 1;
        x->idxNum = 1;
        x->orderByConsumed = x->nOrderBy == 1 && x->aOrderBy[0].iColumn == LOW && !x->aOrderBy[0].desc;
        return SQLITE_OK;
    }
    return SQLITE_OK; /* with idxNum 0: ranges_filter says what is missing */
}

static int ranges_open(sqlite3_vtab *table, sqlite3_vtab_cursor **to)
{
    (void)table;
    struct cursor *c = sqlite3_malloc(sizeof *c);
    if (!c)
        return SQLITE_NOMEM;
    memset(c, 0, sizeof *c);
    *to = &c->base;
    return SQLITE_OK;
}

static void forget(struct cursor *c)
{
    sqlite3_value_free(c->region);
    sqlite3_free(c->pieces);
    c->region = NULL;
    c->pieces = NULL;
    c->count = c->at = 0;
}

static int ranges_close(sqlite3_vtab_cursor *base)
{
    forget((struct cursor *)base);
    sqlite3_free(base);
    return SQLITE_OK;
}

static int ranges_fail(struct cursor *c, const char *what, const char *type)
{
    sqlite3_free(c->base.pVtab->zErrMsg);
    c->base.pVtab->zErrMsg = sqlite3_mprintf("htm_ranges: %s%s", what, type);
    return SQLITE_ERROR;
}

static int find_pieces(struct cursor *c)
{
    size_t bytes;
    const uint8_t *file = bytes_of(c->region, &bytes);
    c->pieces = sqlite3_malloc64(SKY_PIECES * sizeof *c->pieces);
    if (!c->pieces)
        return SQLITE_NOMEM;
    c->count = sky_pieces(file, bytes, c->pieces, SKY_PIECES);
    if (c->count >= 0)
        return SQLITE_OK;
    int64_t refusal = c->count;
    c->count = 0;
    return ranges_fail(c, sky_message(refusal), "");
}

static int ranges_filter(sqlite3_vtab_cursor *base, int index, const char *text, int argc, sqlite3_value **argv)
{
    struct cursor *c = (struct cursor *)base;
    (void)text;
    forget(c);
    if (index != 1 || argc != 1)
        return ranges_fail(c, "a region is expected: htm_ranges(region)", "");
    int type = sqlite3_value_type(argv[0]);
    if (type == SQLITE_NULL)
        return SQLITE_OK;
    if (type != SQLITE_BLOB)
        return ranges_fail(c, "argument 1 (region): a region, which is a blob, is expected, not ", type_word(argv[0]));
    c->region = sqlite3_value_dup(argv[0]);
    return c->region ? find_pieces(c) : SQLITE_NOMEM;
}

static int ranges_next(sqlite3_vtab_cursor *base)
{
    ((struct cursor *)base)->at++;
    return SQLITE_OK;
}

static int ranges_eof(sqlite3_vtab_cursor *base)
{
    const struct cursor *c = (const struct cursor *)base;
    return c->at >= c->count;
}

static int ranges_column(sqlite3_vtab_cursor *base, sqlite3_context *to, int column)
{
    const struct cursor *c = (const struct cursor *)base;
    const struct sky_piece *piece = &c->pieces[c->at];
    switch (column) {
    case KIND:
        sqlite3_result_text(to, piece->inner ? "inner" : "test", -1, SQLITE_STATIC);
        break;
    case LOW:
        sqlite3_result_int64(to, (int64_t)piece->low);
        break;
    case HIGH:
        sqlite3_result_int64(to, (int64_t)piece->high);
        break;
    default:
        sqlite3_result_value(to, c->region);
    }
    return SQLITE_OK;
}

static int ranges_rowid(sqlite3_vtab_cursor *base, sqlite3_int64 *to)
{
    *to = ((const struct cursor *)base)->at;
    return SQLITE_OK;
}

/* Without xCreate the table is there by its name alone. */
static const sqlite3_module ranges = {
    .xConnect = ranges_connect, .xBestIndex = ranges_best_index, .xDisconnect = ranges_disconnect,
    .xOpen = ranges_open,       .xClose = ranges_close,          .xFilter = ranges_filter,
    .xNext = ranges_next,       .xEof = ranges_eof,              .xColumn = ranges_column,
    .xRowid = ranges_rowid,
};

/* ---- loading */

static int add_functions(sqlite3 *db)
{
    const int flags = SQLITE_UTF8 | SQLITE_DETERMINISTIC | SQLITE_INNOCUOUS;
    for (size_t i = 0; i < FUNCTIONS; i++)
        for (int n = functions[i].least; n <= functions[i].most; n++) {
            int rc = sqlite3_create_function_v2(db, functions[i].name, n, flags, (void *)&functions[i], functions[i].call, NULL, NULL, NULL);
            if (rc != SQLITE_OK)
                return rc;
        }
    return SQLITE_OK;
}

/* SQLite looks for the first name, then for the one that it makes of the file's name htm_sqlite. */
__attribute__((visibility("default"))) int sqlite3_extension_init(sqlite3 *db, char **message, const sqlite3_api_routines *api)
{
    SQLITE_EXTENSION_INIT2(api);
    if (sqlite3_libversion_number() < 3031000) {
        *message = sqlite3_mprintf("htm_sqlite: SQLite 3.31 or later is needed, this is %s", sqlite3_libversion());
        return SQLITE_ERROR;
    }
    int rc = add_functions(db);
    return rc == SQLITE_OK ? sqlite3_create_module_v2(db, "htm_ranges", &ranges, NULL, NULL) : rc;
}

__attribute__((visibility("default"))) int sqlite3_htmsqlite_init(sqlite3 *db, char **message, const sqlite3_api_routines *api)
{
    return sqlite3_extension_init(db, message, api);
}
