/* The access base in SQL, as an extension of PostgreSQL: functions on bytea, nothing stored. Every value lent to the
 * library is a copy; numbers are checked to fit 32 bits; NULL never arrives, since all functions are STRICT. */
#include "postgres.h"

#include "access/detoast.h"
#include "access/htup_details.h"
#include "catalog/pg_type.h"
#include "fmgr.h"
#include "funcapi.h"
#include "miscadmin.h"
#include "utils/builtins.h"
#include "utils/multirangetypes.h"
#include "utils/rangetypes.h"
#include "utils/tuplestore.h"
#include "utils/typcache.h"

#include "layer.h"

PG_MODULE_MAGIC;

static void refuse(uint32 refusal)
{
    ereport(ERROR, (errcode(refusal == ACCESS_BASE_INVALID_BASE ? ERRCODE_DATA_CORRUPTED : ERRCODE_INVALID_PARAMETER_VALUE),
                    errmsg("refused %u", refusal), errhint("%s", layer_what_to_do(refusal))));
}

static uint32 number_of(FunctionCallInfo fcinfo, int i, const char *name)
{
    int64 v = PG_GETARG_INT64(i);
    if (v < 0 || v > (int64)ACCESS_BASE_LAST)
        ereport(ERROR, (errcode(ERRCODE_NUMERIC_VALUE_OUT_OF_RANGE),
                        errmsg("%s is " INT64_FORMAT ", which is not within 0 to 4294967295", name, v)));
    return (uint32)v;
}

/* Whether argument 0 has a base's length, told without fetching it. */
static bool has_length(FunctionCallInfo fcinfo)
{
    return toast_raw_datum_size(PG_GETARG_DATUM(0)) == VARHDRSZ + ACCESS_BASE_BYTES;
}

/* A copy of argument 0, of a base's length; bytes of another length are no base. */
static bytea *lent_copy(FunctionCallInfo fcinfo)
{
    if (!has_length(fcinfo))
        refuse(ACCESS_BASE_INVALID_BASE);
    check_stack_depth();
    return PG_GETARG_BYTEA_P_COPY(0);
}

#define BYTES(b) ((uint8_t *)VARDATA(b))

PG_FUNCTION_INFO_V1(access_base_pg_empty);
Datum access_base_pg_empty(PG_FUNCTION_ARGS)
{
    bytea *base = palloc(VARHDRSZ + ACCESS_BASE_BYTES);
    SET_VARSIZE(base, VARHDRSZ + ACCESS_BASE_BYTES);
    (void)access_base_make(BYTES(base), ACCESS_BASE_BYTES);
    PG_RETURN_BYTEA_P(base);
}

PG_FUNCTION_INFO_V1(access_base_pg_is_sound);
Datum access_base_pg_is_sound(PG_FUNCTION_ARGS)
{
    bytea *base;
    bool sound;
    if (!has_length(fcinfo))
        PG_RETURN_BOOL(false);
    base = lent_copy(fcinfo);
    sound = access_base_is_sound(BYTES(base), ACCESS_BASE_BYTES);
    pfree(base);
    PG_RETURN_BOOL(sound);
}

/* put(base, line): the reply, and the base after it. */
PG_FUNCTION_INFO_V1(access_base_pg_put);
Datum access_base_pg_put(PG_FUNCTION_ARGS)
{
    text *given = PG_GETARG_TEXT_PP(1);
    size_t length = VARSIZE_ANY_EXHDR(given);
    const char *fault = layer_line_fault((const uint8_t *)VARDATA_ANY(given), length);
    uint8_t line[ACCESS_BASE_LINE_BYTES];
    bytea *base;
    char *out;
    long written;
    TupleDesc row;
    Datum values[2];
    bool nulls[2] = {false, false};
    if (fault != NULL)
        ereport(ERROR, (errcode(ERRCODE_INVALID_PARAMETER_VALUE), errmsg("%s", fault)));
    if (get_call_result_type(fcinfo, NULL, &row) != TYPEFUNC_COMPOSITE)
        elog(ERROR, "put gives a row: call it where a row may stand");
    memcpy(line, VARDATA_ANY(given), length);
    base = lent_copy(fcinfo);
    out = palloc(ACCESS_BASE_TEXT_BYTES);
    written = layer_put(BYTES(base), ACCESS_BASE_BYTES, line, length, out);
    if (written < 0)
        elog(ERROR, "the library gave no reply: this is a fault of the extension, report it");
    if (strcmp(out, "refused 2") == 0)
        refuse(ACCESS_BASE_INVALID_BASE);
    values[0] = PointerGetDatum(cstring_to_text_with_len(out, (int)written));
    values[1] = PointerGetDatum(base);
    pfree(out);
    PG_RETURN_DATUM(HeapTupleGetDatum(heap_form_tuple(BlessTupleDesc(row), values, nulls)));
}

PG_FUNCTION_INFO_V1(access_base_pg_may);
Datum access_base_pg_may(PG_FUNCTION_ARGS)
{
    uint32 subject = number_of(fcinfo, 1, "subject"), mode = number_of(fcinfo, 2, "mode");
    uint32 object = number_of(fcinfo, 3, "object"), instant = number_of(fcinfo, 4, "instant");
    bytea *base = lent_copy(fcinfo);
    struct access_base_reply r = access_base_ask_may(BYTES(base), ACCESS_BASE_BYTES, subject, mode, object, instant);
    pfree(base);
    if (r.refusal != ACCESS_BASE_DONE)
        refuse(r.refusal);
    PG_RETURN_BOOL(r.number == 1);
}

PG_FUNCTION_INFO_V1(access_base_pg_sheet);
Datum access_base_pg_sheet(PG_FUNCTION_ARGS)
{
    uint32 object = number_of(fcinfo, 1, "object");
    bytea *base = lent_copy(fcinfo);
    text *page = palloc(VARHDRSZ + ACCESS_BASE_SHEET_BYTES);
    struct access_base_reply r =
        access_base_write_report(BYTES(base), ACCESS_BASE_BYTES, object, VARDATA(page), ACCESS_BASE_SHEET_BYTES);
    pfree(base);
    if (r.refusal != ACCESS_BASE_DONE)
        refuse(r.refusal);
    SET_VARSIZE(page, VARHDRSZ + r.number);
    PG_RETURN_TEXT_P(page);
}

/* One run as a range, half open, which is the canonical form; the last instant is infinity and has no bound. */
static RangeType *range_of(TypeCacheEntry *type, uint32 first, uint32 last)
{
    RangeBound lower = {Int64GetDatum((int64)first), false, true, true};
    RangeBound upper = {Int64GetDatum((int64)last + 1), last == ACCESS_BASE_LAST, false, false};
    return make_range(type, &lower, &upper, false);
}

PG_FUNCTION_INFO_V1(access_base_pg_runs);
Datum access_base_pg_runs(PG_FUNCTION_ARGS)
{
    uint32 subject = number_of(fcinfo, 1, "subject"), mode = number_of(fcinfo, 2, "mode");
    uint32 object = number_of(fcinfo, 3, "object");
    bytea *base = lent_copy(fcinfo);
    uint32 *list = palloc(2 * ACCESS_BASE_PAIRS * sizeof(uint32));
    TypeCacheEntry *type = lookup_type_cache(INT8MULTIRANGEOID, TYPECACHE_MULTIRANGE_INFO);
    struct access_base_reply r =
        access_base_ask_when(BYTES(base), ACCESS_BASE_BYTES, subject, mode, object, list, 2 * ACCESS_BASE_PAIRS);
    RangeType **ranges;
    pfree(base);
    if (r.refusal != ACCESS_BASE_DONE)
        refuse(r.refusal);
    ranges = palloc((r.number + 1) * sizeof *ranges);
    for (uint32 i = 0; i < r.number; i++)
        ranges[i] = range_of(type->rngtype, list[2 * i], list[2 * i + 1]);
    PG_RETURN_MULTIRANGE_P(make_multirange(INT8MULTIRANGEOID, type->rngtype, (int32)r.number, ranges));
}

static Datum value_of(char kind, uint32 number)
{
    if (kind == LAYER_TRUTH)
        return BoolGetDatum(number != 0);
    return kind == LAYER_INSTANT ? Int64GetDatum((int64)number) : Int32GetDatum((int32)number);
}

/* The records of a body as rows. */
static Datum rows_of(FunctionCallInfo fcinfo, uint32 body)
{
    const struct layer_body *shape = &layer_bodies[body];
    ReturnSetInfo *set = (ReturnSetInfo *)fcinfo->resultinfo;
    bytea *base;
    uint32 *list;
    struct access_base_reply r;
    Datum values[ACCESS_BASE_RECORD_NUMBERS];
    bool nulls[ACCESS_BASE_RECORD_NUMBERS] = {false};
    InitMaterializedSRF(fcinfo, 0);
    if (set->setDesc->natts != (int)shape->columns)
        elog(ERROR, "the extension's SQL does not fit its library: ALTER EXTENSION access_base UPDATE");
    base = lent_copy(fcinfo);
    list = palloc(ACCESS_BASE_BODY_NUMBERS * sizeof *list);
    r = access_base_read(BYTES(base), ACCESS_BASE_BYTES, body, 0, list, ACCESS_BASE_BODY_NUMBERS);
    pfree(base);
    if (r.refusal != ACCESS_BASE_DONE)
        refuse(r.refusal);
    for (uint32 i = 0; i < r.number; i++) {
        for (uint32 c = 0; c < shape->columns; c++)
            values[c] = value_of(shape->kinds[c], list[i * shape->columns + c]);
        tuplestore_putvalues(set->setResult, set->setDesc, values, nulls);
    }
    pfree(list);
    return (Datum)0;
}

#define ROWS(name, body)                   \
    PG_FUNCTION_INFO_V1(name);             \
    Datum name(PG_FUNCTION_ARGS)           \
    {                                      \
        return rows_of(fcinfo, body);      \
    }

ROWS(access_base_pg_heading, ACCESS_BASE_HEADING)
ROWS(access_base_pg_objects, ACCESS_BASE_OBJECTS)
ROWS(access_base_pg_administrators, ACCESS_BASE_ADMINISTRATORS)
ROWS(access_base_pg_referrers, ACCESS_BASE_REFERRERS)
ROWS(access_base_pg_authorizations, ACCESS_BASE_AUTHORIZATIONS)
ROWS(access_base_pg_rules, ACCESS_BASE_RULES)
