/* The extension htm of PostgreSQL: the calls of htm.h and htm_sky.h as functions of SQL, and htm_within, which a plan turns into ranges of
 * identifiers. Tested, not proved. htm--1.0.sql declares the functions, docs/DATABASES.md describes them. */
#include "postgres.h"

#include "access/htup_details.h"
#include "access/stratnum.h"
#include "catalog/pg_opfamily.h"
#include "catalog/pg_type.h"
#include "fmgr.h"
#include "funcapi.h"
#include "nodes/makefuncs.h"
#include "nodes/nodeFuncs.h"
#include "nodes/supportnodes.h"
#include "optimizer/clauses.h"
#include "optimizer/optimizer.h"
#include "parser/parse_func.h"
#include "utils/array.h"
#include "utils/builtins.h"
#include "utils/fmgroids.h"
#include "utils/lsyscache.h"

#include "htm_sky.h"

PG_MODULE_MAGIC;

#define PARTS 16       /* ranges of a search whose region is known only when it runs */
#define MOST_RANGES 32 /* ranges of a search whose region is known to the planner; README.md has what more of them cost */

/* The share of what an outer range holds that is in the region: about 0.9 at budget 64. */
#define CHECKED_SHARE 0.9
/* What a planner takes a range of unknown ends to select. */
#define WITHIN_SHARE 0.005

static void refuse(const char *call, int64 code) pg_attribute_noreturn();

static void refuse(const char *call, int64 code)
{
    ereport(ERROR, (errcode(ERRCODE_INVALID_PARAMETER_VALUE), errmsg("%s: %s", call, sky_message(code))));
}

/* ---- identifiers and names */

PG_FUNCTION_INFO_V1(pg_htm_lookup);
Datum pg_htm_lookup(PG_FUNCTION_ARGS)
{
    int64 id = htm_lookup(PG_GETARG_INT32(0), PG_GETARG_INT32(1), PG_GETARG_INT32(2), (uint32)PG_GETARG_INT32(3));
    if (id < 0)
        refuse("htm_lookup", id);
    PG_RETURN_INT64(id);
}

PG_FUNCTION_INFO_V1(pg_htm_lookup_degrees);
Datum pg_htm_lookup_degrees(PG_FUNCTION_ARGS)
{
    int64 id = sky_lookup(PG_GETARG_FLOAT8(0), PG_GETARG_FLOAT8(1), (uint32)PG_GETARG_INT32(2));
    if (id < 0)
        refuse("htm_lookup_degrees", id);
    PG_RETURN_INT64(id);
}

PG_FUNCTION_INFO_V1(pg_htm_pointing);
Datum pg_htm_pointing(PG_FUNCTION_ARGS)
{
    int32_t p[3];
    TupleDesc row;
    bool nulls[3] = {false, false, false};
    int64 code = sky_pointing(PG_GETARG_FLOAT8(0), PG_GETARG_FLOAT8(1), p);
    if (code < 0)
        refuse("htm_pointing", code);
    if (get_call_result_type(fcinfo, NULL, &row) != TYPEFUNC_COMPOSITE)
        elog(ERROR, "htm_pointing: the result is not declared as a row");
    Datum values[3] = {Int32GetDatum(p[0]), Int32GetDatum(p[1]), Int32GetDatum(p[2])};
    PG_RETURN_DATUM(HeapTupleGetDatum(heap_form_tuple(BlessTupleDesc(row), values, nulls)));
}

/* An identifier of depth 31 has bit 63, so that it is negative here. */
PG_FUNCTION_INFO_V1(pg_htm_name);
Datum pg_htm_name(PG_FUNCTION_ARGS)
{
    uint8 name[HTM_NAME_BYTES];
    int64 length = htm_name((uint64)PG_GETARG_INT64(0), name, sizeof name);
    if (length < 0)
        refuse("htm_name", length);
    PG_RETURN_TEXT_P(cstring_to_text_with_len((const char *)name, (int)length));
}

PG_FUNCTION_INFO_V1(pg_htm_identifier);
Datum pg_htm_identifier(PG_FUNCTION_ARGS)
{
    text *name = PG_GETARG_TEXT_PP(0);
    uint64 id = htm_identifier((const uint8 *)VARDATA_ANY(name), VARSIZE_ANY_EXHDR(name));
    if (id == 0)
        refuse("htm_identifier", -HTM_NAME);
    PG_FREE_IF_COPY(name, 0);
    PG_RETURN_INT64((int64)id);
}

/* ---- regions */

static bytea *new_file(void)
{
    return palloc(VARHDRSZ + HTM_FILE_BYTES);
}

/* What a call wrote into a new file: its length, or why not. */
static Datum written(const char *call, bytea *file, int64 length)
{
    if (length < 0)
        refuse(call, length);
    SET_VARSIZE(file, VARHDRSZ + length);
    return PointerGetDatum(file);
}

/* The elements of an array argument, none of them null: how many. */
static size_t numbers_of(const char *call, ArrayType *array)
{
    if (array_contains_nulls(array))
        ereport(ERROR, (errcode(ERRCODE_NULL_VALUE_NOT_ALLOWED), errmsg("%s: a number is null", call)));
    return (size_t)ArrayGetNItems(ARR_NDIM(array), ARR_DIMS(array));
}

PG_FUNCTION_INFO_V1(pg_htm_cone);
Datum pg_htm_cone(PG_FUNCTION_ARGS)
{
    bytea *file = new_file();
    PG_RETURN_DATUM(written("htm_cone", file,
                            sky_cone(PG_GETARG_FLOAT8(0), PG_GETARG_FLOAT8(1), PG_GETARG_FLOAT8(2), (uint32)PG_GETARG_INT32(3),
                                     (uint32)PG_GETARG_INT32(4), (uint8 *)VARDATA(file), HTM_FILE_BYTES)));
}

PG_FUNCTION_INFO_V1(pg_htm_polygon);
Datum pg_htm_polygon(PG_FUNCTION_ARGS)
{
    ArrayType *degrees = PG_GETARG_ARRAYTYPE_P(0);
    size_t count = numbers_of("htm_polygon", degrees);
    bytea *file = new_file();
    if (count % 2 != 0)
        ereport(ERROR, (errcode(ERRCODE_INVALID_PARAMETER_VALUE), errmsg("htm_polygon: a corner is two numbers, ra and dec")));
    PG_RETURN_DATUM(written("htm_polygon", file,
                            sky_polygon((const double *)ARR_DATA_PTR(degrees), count / 2, SKY_CHOOSE_DEPTH, SKY_BUDGET,
                                        (uint8 *)VARDATA(file), HTM_FILE_BYTES)));
}

PG_FUNCTION_INFO_V1(pg_htm_region);
Datum pg_htm_region(PG_FUNCTION_ARGS)
{
    ArrayType *numbers = PG_GETARG_ARRAYTYPE_P(2);
    size_t count = numbers_of("htm_region", numbers);
    bytea *file = new_file();
    PG_RETURN_DATUM(written("htm_region", file,
                            htm_write((uint32)PG_GETARG_INT32(0), (uint32)PG_GETARG_INT32(1), (const int32_t *)ARR_DATA_PTR(numbers), count,
                                      (uint8 *)VARDATA(file), HTM_FILE_BYTES)));
}

/* ---- the point test */

static bool held(const char *call, bytea *region, const int32_t p[3])
{
    int64 answer = htm_holds((const uint8 *)VARDATA_ANY(region), VARSIZE_ANY_EXHDR(region), p[0], p[1], p[2]);
    if (answer < 0)
        refuse(call, answer);
    return answer == 1;
}

/* The test of a direction in degrees: arguments number first and the next. */
static bool held_degrees(const char *call, bytea *region, FunctionCallInfo fcinfo, int first)
{
    int32_t p[3];
    int64 code = sky_pointing(PG_GETARG_FLOAT8(first), PG_GETARG_FLOAT8(first + 1), p);
    if (code < 0)
        refuse(call, code);
    return held(call, region, p);
}

PG_FUNCTION_INFO_V1(pg_htm_holds);
Datum pg_htm_holds(PG_FUNCTION_ARGS)
{
    bytea *region = PG_GETARG_BYTEA_PP(0);
    int32_t p[3] = {PG_GETARG_INT32(1), PG_GETARG_INT32(2), PG_GETARG_INT32(3)};
    bool answer = held("htm_holds", region, p);
    PG_FREE_IF_COPY(region, 0);
    PG_RETURN_BOOL(answer);
}

PG_FUNCTION_INFO_V1(pg_htm_holds_degrees);
Datum pg_htm_holds_degrees(PG_FUNCTION_ARGS)
{
    bytea *region = PG_GETARG_BYTEA_PP(0);
    bool answer = held_degrees("htm_holds_degrees", region, fcinfo, 1);
    PG_FREE_IF_COPY(region, 0);
    PG_RETURN_BOOL(answer);
}

/* Without a plan's ranges, htm_within is the point test: the identifier says nothing that the direction does not. */
PG_FUNCTION_INFO_V1(pg_htm_within);
Datum pg_htm_within(PG_FUNCTION_ARGS)
{
    bytea *region = PG_GETARG_BYTEA_PP(4);
    int32_t p[3] = {PG_GETARG_INT32(1), PG_GETARG_INT32(2), PG_GETARG_INT32(3)};
    bool answer = held("htm_within", region, p);
    PG_FREE_IF_COPY(region, 4);
    PG_RETURN_BOOL(answer);
}

PG_FUNCTION_INFO_V1(pg_htm_within_degrees);
Datum pg_htm_within_degrees(PG_FUNCTION_ARGS)
{
    bytea *region = PG_GETARG_BYTEA_PP(3);
    bool answer = held_degrees("htm_within_degrees", region, fcinfo, 1);
    PG_FREE_IF_COPY(region, 3);
    PG_RETURN_BOOL(answer);
}

/* Whether one of the ranges holds the identifier. They are pairs low, high and ascend; for any other array the answer means nothing. */
static bool in_ranges(ArrayType *ranges, int64 id)
{
    const int64 *pairs = (const int64 *)ARR_DATA_PTR(ranges);
    int count = array_contains_nulls(ranges) ? 0 : ArrayGetNItems(ARR_NDIM(ranges), ARR_DIMS(ranges)) / 2;
    int low = 0, high = count;
    while (low < high) { /* the ranges before low end before id, those from high on do not */
        int middle = low + (high - low) / 2;
        if (pairs[2 * middle + 1] < id)
            low = middle + 1;
        else
            high = middle;
    }
    return low < count && pairs[2 * low] <= id;
}

/* The test of what the outer ranges hold: in an inner range, or held. */
PG_FUNCTION_INFO_V1(pg_htm_checked);
Datum pg_htm_checked(PG_FUNCTION_ARGS)
{
    if (in_ranges(PG_GETARG_ARRAYTYPE_P(5), PG_GETARG_INT64(0)))
        PG_RETURN_BOOL(true);
    int32_t p[3] = {PG_GETARG_INT32(1), PG_GETARG_INT32(2), PG_GETARG_INT32(3)};
    PG_RETURN_BOOL(held("htm_within", PG_GETARG_BYTEA_PP(4), p));
}

PG_FUNCTION_INFO_V1(pg_htm_checked_degrees);
Datum pg_htm_checked_degrees(PG_FUNCTION_ARGS)
{
    if (in_ranges(PG_GETARG_ARRAYTYPE_P(4), PG_GETARG_INT64(0)))
        PG_RETURN_BOOL(true);
    PG_RETURN_BOOL(held_degrees("htm_within_degrees", PG_GETARG_BYTEA_PP(3), fcinfo, 1));
}

/* ---- ranges */

struct pieces {
    int64 count; /* or a refusal */
    struct sky_piece list[SKY_PIECES];
};

static struct pieces *find_pieces(bytea *region)
{
    struct pieces *p = palloc(sizeof *p);
    p->count = sky_pieces((const uint8 *)VARDATA_ANY(region), VARSIZE_ANY_EXHDR(region), p->list, SKY_PIECES);
    return p;
}

/* The pieces stay in the memory of the whole call, which the executor frees, also where it does not fetch all rows. */
PG_FUNCTION_INFO_V1(pg_htm_ranges);
Datum pg_htm_ranges(PG_FUNCTION_ARGS)
{
    FuncCallContext *call;
    struct pieces *pieces;
    if (SRF_IS_FIRSTCALL()) {
        TupleDesc row;
        call = SRF_FIRSTCALL_INIT();
        MemoryContext before = MemoryContextSwitchTo(call->multi_call_memory_ctx);
        pieces = find_pieces(PG_GETARG_BYTEA_PP(0));
        if (pieces->count < 0)
            refuse("htm_ranges", pieces->count);
        if (get_call_result_type(fcinfo, NULL, &row) != TYPEFUNC_COMPOSITE)
            elog(ERROR, "htm_ranges: the result is not declared as rows");
        call->tuple_desc = BlessTupleDesc(row);
        call->user_fctx = pieces;
        MemoryContextSwitchTo(before);
    }
    call = SRF_PERCALL_SETUP();
    pieces = call->user_fctx;
    if (call->call_cntr >= (uint64)pieces->count)
        SRF_RETURN_DONE(call);
    const struct sky_piece *p = &pieces->list[call->call_cntr];
    bool nulls[3] = {false, false, false};
    Datum values[3] = {CStringGetTextDatum(p->inner ? "inner" : "test"), Int64GetDatum((int64)p->low), Int64GetDatum((int64)p->high)};
    SRF_RETURN_NEXT(call, HeapTupleGetDatum(heap_form_tuple(call->tuple_desc, values, nulls)));
}

/* ---- outer ranges, joined over the smallest gaps where they are too many */

struct range {
    int64 low, high;
};

static uint64 gap_behind(const struct pieces *p, int64 i)
{
    return p->list[i + 1].low - p->list[i].high - 1;
}

/* The piece with the widest gap behind it that is not yet chosen; -1 where every gap is. */
static int64 widest_gap(const struct pieces *p, const bool *chosen)
{
    int64 widest = -1;
    uint64 width = 0;
    for (int64 i = 0; i + 1 < p->count; i++)
        if (!chosen[i] && gap_behind(p, i) > width) {
            widest = i;
            width = gap_behind(p, i);
        }
    return widest;
}

/* The ranges that hold all pieces, at most `most`, from ranges[0] on: how many. The widest gaps stay between them. */
static int join_pieces(const struct pieces *p, struct range *ranges, int most)
{
    bool *chosen = palloc0(SKY_PIECES * sizeof *chosen);
    int count = 0;
    for (int i = 1; i < most; i++) {
        int64 gap = widest_gap(p, chosen);
        if (gap < 0)
            break;
        chosen[gap] = true;
    }
    for (int64 i = 0; i < p->count; i++) {
        if (i == 0 || chosen[i - 1])
            ranges[count++].low = (int64)p->list[i].low;
        ranges[count - 1].high = (int64)p->list[i].high;
    }
    pfree(chosen);
    return count;
}

/* For qsort: the widest range comes first, since most rows are in it. */
static int by_width(const void *a, const void *b)
{
    const struct range *r = a, *s = b;
    int64 difference = (s->high - s->low) - (r->high - r->low);
    return difference > 0 ? 1 : difference < 0 ? -1 : r->low < s->low ? -1 : 1;
}

/* ---- the ranges of a region that is known only when the search runs */

struct parts {
    struct range list[PARTS];
};

/* A part that is not needed holds no identifier. */
static struct parts find_parts(bytea *region)
{
    struct parts parts;
    struct pieces *p = find_pieces(region);
    if (p->count < 0)
        refuse("htm_within", p->count);
    for (int i = join_pieces(p, parts.list, PARTS); i < PARTS; i++)
        parts.list[i] = (struct range){PG_INT64_MAX, 0};
    pfree(p);
    return parts;
}

/* A search asks for all parts one after the other, so that those of the last region are kept. */
static struct range part_of(FunctionCallInfo fcinfo)
{
    static uint8 file[HTM_FILE_BYTES];
    static size_t length = 0; /* no region file has 0 bytes */
    static struct parts parts;
    bytea *region = PG_GETARG_BYTEA_PP(0);
    int32 number = PG_GETARG_INT32(1);
    size_t bytes = VARSIZE_ANY_EXHDR(region);
    if (number < 1 || number > PARTS)
        ereport(ERROR, (errcode(ERRCODE_INVALID_PARAMETER_VALUE), errmsg("htm_within: a part is from 1 to %d", PARTS)));
    if (length == 0 || length != bytes || memcmp(file, VARDATA_ANY(region), bytes) != 0) {
        parts = find_parts(region); /* a refusal leaves all three as they are */
        memcpy(file, VARDATA_ANY(region), bytes);
        length = bytes;
    }
    PG_FREE_IF_COPY(region, 0);
    return parts.list[number - 1];
}

PG_FUNCTION_INFO_V1(pg_htm_part_low);
Datum pg_htm_part_low(PG_FUNCTION_ARGS)
{
    PG_RETURN_INT64(part_of(fcinfo).low);
}

PG_FUNCTION_INFO_V1(pg_htm_part_high);
Datum pg_htm_part_high(PG_FUNCTION_ARGS)
{
    PG_RETURN_INT64(part_of(fcinfo).high);
}

/* ---- the planner: htm_within as ranges that an index or a partitioned table serves
 *
 * A constant region becomes  (htm in range 1 OR .. OR htm in range n) AND htm_checked(.., inner ranges),
 * a parameter becomes        (htm in part 1 OR .. OR htm in part 16) AND htm_holds(..),
 * and any other region stays a test of every row. */

/* A function of the extension, in the schema of the call; InvalidOid where there is none. */
static Oid sibling(Oid call, const char *name, int n, const Oid *types)
{
    char *schema = get_namespace_name(get_func_namespace(call));
    return schema ? LookupFuncName(list_make2(makeString(schema), makeString(pstrdup(name))), n, types, true) : InvalidOid;
}

static Node *call_of(Oid function, Oid result, List *args)
{
    return (Node *)makeFuncExpr(function, result, args, InvalidOid, InvalidOid, COERCE_EXPLICIT_CALL);
}

/* htm >= bound or htm <= bound, by the operator of btree indexes on whole numbers. */
static Node *compare(Node *htm, int16 strategy, Node *bound)
{
    Oid op = get_opfamily_member(INTEGER_BTREE_FAM_OID, exprType(htm), exprType(bound), strategy);
    Expr *e = make_opclause(op, BOOLOID, false, (Expr *)copyObject(htm), (Expr *)bound, InvalidOid, InvalidOid);
    set_opfuncid((OpExpr *)e);
    return (Node *)e;
}

static Node *between(Node *htm, Node *low, Node *high)
{
    return (Node *)makeBoolExpr(AND_EXPR,
                                list_make2(compare(htm, BTGreaterEqualStrategyNumber, low), compare(htm, BTLessEqualStrategyNumber, high)), -1);
}

static Node *constant(Oid type, Datum value)
{
    return (Node *)makeConst(type, -1, InvalidOid, type == INT8OID ? 8 : 4, value, false, type == INT8OID ? FLOAT8PASSBYVAL : true);
}

/* An identifier of depth 12 as a constant of the column's type; it is below 2^26. */
static Node *identifier(Node *htm, int64 id)
{
    return exprType(htm) == INT4OID ? constant(INT4OID, Int32GetDatum((int32)id)) : constant(INT8OID, Int64GetDatum(id));
}

static Node *any_of(List *ranges)
{
    return list_length(ranges) == 1 ? linitial(ranges) : (Node *)makeBoolExpr(OR_EXPR, ranges, -1);
}

static Node *both(Node *ranges, Node *test)
{
    return (Node *)makeBoolExpr(AND_EXPR, list_make2(ranges, test), -1);
}

/* The inner ranges as an array of pairs. Neighbours are joined already. */
static Node *inner_array(const struct pieces *p)
{
    Datum *ends = palloc(2 * p->count * sizeof *ends);
    int n = 0;
    for (int64 i = 0; i < p->count; i++)
        if (p->list[i].inner) {
            ends[n++] = Int64GetDatum((int64)p->list[i].low);
            ends[n++] = Int64GetDatum((int64)p->list[i].high);
        }
    ArrayType *array = construct_array(ends, n, INT8OID, 8, FLOAT8PASSBYVAL, TYPALIGN_DOUBLE);
    return (Node *)makeConst(INT8ARRAYOID, -1, InvalidOid, -1, PointerGetDatum(array), false, false);
}

/* The arguments of htm_within and htm_within_degrees: htm, the direction (three whole numbers or two degrees), the region. */
struct within {
    Oid call;
    Node *htm, *region;
    List *direction;
    bool degrees;
};

static struct within within_of(const FuncExpr *e)
{
    int n = list_length(e->args);
    struct within w = {e->funcid, linitial(e->args), llast(e->args), NIL, n == 4};
    for (int i = 1; i < n - 1; i++)
        w.direction = lappend(w.direction, copyObject(list_nth(e->args, i)));
    return w;
}

static Node *by_constant(const struct within *w)
{
    static const Oid xyz[] = {INT8OID, INT4OID, INT4OID, INT4OID, BYTEAOID, INT8ARRAYOID};
    static const Oid degrees[] = {INT8OID, FLOAT8OID, FLOAT8OID, BYTEAOID, INT8ARRAYOID};
    Oid checked = w->degrees ? sibling(w->call, "htm_checked_degrees", 5, degrees) : sibling(w->call, "htm_checked", 6, xyz);
    struct pieces *p = find_pieces(DatumGetByteaPP(((Const *)w->region)->constvalue));
    struct range outer[MOST_RANGES];
    List *ranges = NIL;
    if (p->count < 0 || checked == InvalidOid)
        return NULL; /* a bad region is refused when a row is tested */
    if (p->count == 0)
        return makeBoolConst(false, false);
    int count = join_pieces(p, outer, MOST_RANGES);
    qsort(outer, count, sizeof outer[0], by_width);
    for (int i = 0; i < count; i++)
        ranges = lappend(ranges, between(w->htm, identifier(w->htm, outer[i].low), identifier(w->htm, outer[i].high)));
    Node *htm = copyObject(w->htm);
    if (exprType(htm) == INT4OID)
        htm = (Node *)makeFuncExpr(F_INT8_INT4, INT8OID, list_make1(htm), InvalidOid, InvalidOid, COERCE_IMPLICIT_CAST);
    List *args = lcons(htm, lappend(lappend(w->direction, copyObject(w->region)), inner_array(p)));
    pfree(p);
    return both(any_of(ranges), call_of(checked, BOOLOID, args));
}

static Node *by_parameter(const struct within *w)
{
    static const Oid xyz[] = {BYTEAOID, INT4OID, INT4OID, INT4OID}, degrees[] = {BYTEAOID, FLOAT8OID, FLOAT8OID};
    static const Oid part[] = {BYTEAOID, INT4OID};
    Oid holds = w->degrees ? sibling(w->call, "htm_holds_degrees", 3, degrees) : sibling(w->call, "htm_holds", 4, xyz);
    Oid low = sibling(w->call, "htm_part_low", 2, part), high = sibling(w->call, "htm_part_high", 2, part);
    List *ranges = NIL;
    if (holds == InvalidOid || low == InvalidOid || high == InvalidOid)
        return NULL;
    for (int i = 1; i <= PARTS; i++) {
        Node *number = constant(INT4OID, Int32GetDatum(i));
        ranges = lappend(ranges, between(w->htm, call_of(low, INT8OID, list_make2(copyObject(w->region), number)),
                                         call_of(high, INT8OID, list_make2(copyObject(w->region), copyObject(number)))));
    }
    return both(any_of(ranges), call_of(holds, BOOLOID, lcons(copyObject(w->region), w->direction)));
}

static Node *simplified(const FuncExpr *e)
{
    struct within w = within_of(e);
    if (contain_volatile_functions(w.htm) || contain_subplans(w.htm))
        return NULL; /* it would be computed once for each range */
    if (IsA(w.region, Const))
        return ((Const *)w.region)->constisnull ? NULL : by_constant(&w);
    if (IsA(w.region, Param) && ((Param *)w.region)->paramkind == PARAM_EXTERN)
        return by_parameter(&w);
    return NULL;
}

PG_FUNCTION_INFO_V1(pg_htm_within_support);
Datum pg_htm_within_support(PG_FUNCTION_ARGS)
{
    Node *request = (Node *)PG_GETARG_POINTER(0);
    if (IsA(request, SupportRequestSimplify))
        PG_RETURN_POINTER(simplified(((SupportRequestSimplify *)request)->fcall));
    if (IsA(request, SupportRequestSelectivity)) {
        ((SupportRequestSelectivity *)request)->selectivity = WITHIN_SHARE;
        PG_RETURN_POINTER(request);
    }
    PG_RETURN_POINTER(NULL);
}

PG_FUNCTION_INFO_V1(pg_htm_checked_support);
Datum pg_htm_checked_support(PG_FUNCTION_ARGS)
{
    Node *request = (Node *)PG_GETARG_POINTER(0);
    if (!IsA(request, SupportRequestSelectivity))
        PG_RETURN_POINTER(NULL);
    ((SupportRequestSelectivity *)request)->selectivity = CHECKED_SHARE;
    PG_RETURN_POINTER(request);
}
