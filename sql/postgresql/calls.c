/* The functions: when a cron fires next, when it fired last, whether it fires at an instant, and all fires between two. */
#include "varpsilt.h"

#include "funcapi.h"
#include "miscadmin.h"
#include "pgtime.h"
#include "utils/builtins.h"
#include "utils/timestamp.h"

/* Seconds from 1970, where the library begins to count, to 2000, where the server does. */
static const int64 GAP = (int64) (POSTGRES_EPOCH_JDATE - UNIX_EPOCH_JDATE) * SECS_PER_DAY;

/* The second that has begun, and the first one that isn't before. Infinities lie past what the library counts. */
static int64 floor_of(TimestampTz at)
{
    return at / USECS_PER_SEC - (at % USECS_PER_SEC < 0) + GAP;
}

static int64 ceiling_of(TimestampTz at)
{
    return at / USECS_PER_SEC + (at % USECS_PER_SEC > 0) + GAP;
}

static TimestampTz timestamp_of(const cron_c_item *item)
{
    return (item->instant - GAP) * USECS_PER_SEC;
}

/* What one place in a query keeps for its next row: the zone that was named last. */
typedef struct site {
    const zone_eras *zone;
    size_t length;
    char name[TZ_STRLEN_MAX];
} site;

/* The zone that an argument names. A function that lists has its own use for `fn_extra`, and keeps none. */
static const zone_eras *named_zone(FunctionCallInfo fcinfo, int place)
{
    const text *name = PG_GETARG_TEXT_PP(place);
    const size_t length = VARSIZE_ANY_EXHDR(name);
    site *kept = fcinfo->flinfo->fn_retset ? NULL : fcinfo->flinfo->fn_extra;
    const zone_eras *zone;
    if (kept != NULL && kept->length == length && memcmp(kept->name, VARDATA_ANY(name), length) == 0) {
        return kept->zone;
    }
    zone = zone_of_name(text_to_cstring(name));
    if (kept == NULL && !fcinfo->flinfo->fn_retset) {
        kept = fcinfo->flinfo->fn_extra = MemoryContextAlloc(fcinfo->flinfo->fn_mcxt, sizeof(site));
    }
    if (kept != NULL) {
        kept->zone = zone;
        kept->length = length; /* which is at most that of a zone that was found */
        memcpy(kept->name, VARDATA_ANY(name), length);
    }
    return zone;
}

/* The rule that an argument names. */
static uint32 named_rule(FunctionCallInfo fcinfo, int place)
{
    const text *name = PG_GETARG_TEXT_PP(place);
    const uint32 rule = read_rule(VARDATA_ANY(name), VARSIZE_ANY_EXHDR(name));
    if (rule == CRON_C_NO_ENTRY) {
        ereport(ERROR,
                errcode(ERRCODE_INVALID_PARAMETER_VALUE),
                errmsg("rule \"%s\" not recognized", text_to_cstring(name)),
                errhint("A rule is \"as_shown\" or \"once\"."));
    }
    return rule;
}

/* Whether a rule stands where a zone could. */
typedef enum form { ZONED, RULED } form;

/*
 * What is asked about: the cron of the first argument, the zone behind `front` arguments or else the session's, and the rule
 * behind it or else the cron's own.
 */
static timeline line_of(FunctionCallInfo fcinfo, int front, form how, expression *read)
{
    const int more = PG_NARGS() - front;
    const zone_eras *zone = how == ZONED && more > 0 ? named_zone(fcinfo, front) : zone_of_session();
    unpack_cron(PG_GETARG_VARLENA_PP(0), read);
    if (how == RULED || more > 1) {
        read->rule = named_rule(fcinfo, PG_NARGS() - 1);
    }
    return (timeline){read->schedules, read->count, zone->eras, zone->length, read->rule};
}

/* Ends the query where the library answers what it never should. */
static bool is_found(uint32 status)
{
    if (status != CRON_C_OK && status != CRON_C_NO_ITEM) {
        elog(ERROR, "varpsilt: %s", cron_c_status_text(status));
    }
    return status == CRON_C_OK;
}

static Datum next_of(FunctionCallInfo fcinfo, form how)
{
    expression read;
    const timeline line = line_of(fcinfo, 2, how, &read);
    cron_c_item item;
    if (!is_found(fire_after(&line, floor_of(PG_GETARG_TIMESTAMPTZ(1)), &item))) {
        PG_RETURN_NULL();
    }
    PG_RETURN_TIMESTAMPTZ(timestamp_of(&item));
}

static Datum previous_of(FunctionCallInfo fcinfo, form how)
{
    expression read;
    const timeline line = line_of(fcinfo, 2, how, &read);
    cron_c_item item;
    if (!is_found(fire_by(&line, ceiling_of(PG_GETARG_TIMESTAMPTZ(1)) - 1, &item))) {
        PG_RETURN_NULL();
    }
    PG_RETURN_TIMESTAMPTZ(timestamp_of(&item));
}

static Datum matches_of(FunctionCallInfo fcinfo, form how)
{
    const TimestampTz at = PG_GETARG_TIMESTAMPTZ(1);
    expression read;
    const timeline line = line_of(fcinfo, 2, how, &read);
    cron_c_item item;
    PG_RETURN_BOOL(is_found(fire_by(&line, floor_of(at), &item)) && timestamp_of(&item) == at);
}

/* A list that goes on from row to row. */
typedef struct stream {
    expression read;
    listing list;
} stream;

static stream *begin_stream(FunctionCallInfo fcinfo, form how, MemoryContext rows)
{
    stream *made = MemoryContextAlloc(rows, sizeof(stream));
    made->list.line = line_of(fcinfo, 3, how, &made->read);
    is_found(begin_listing(&made->list, floor_of(PG_GETARG_TIMESTAMPTZ(1)), floor_of(PG_GETARG_TIMESTAMPTZ(2))));
    return made;
}

static Datum fires_of(FunctionCallInfo fcinfo, form how)
{
    FuncCallContext *rows;
    cron_c_item item;
    if (SRF_IS_FIRSTCALL()) {
        rows = SRF_FIRSTCALL_INIT();
        rows->user_fctx = begin_stream(fcinfo, how, rows->multi_call_memory_ctx);
    }
    rows = SRF_PERCALL_SETUP();
    CHECK_FOR_INTERRUPTS();
    if (!is_found(next_listed(&((stream *) rows->user_fctx)->list, &item))) {
        SRF_RETURN_DONE(rows);
    }
    SRF_RETURN_NEXT(rows, TimestampTzGetDatum(timestamp_of(&item)));
}

#define DEFINE_CALL(name, answer, how) \
    PG_FUNCTION_INFO_V1(name);         \
    Datum name(PG_FUNCTION_ARGS)       \
    {                                  \
        return answer(fcinfo, how);    \
    }                                  \
    extern int varpsilt_ends_##name

DEFINE_CALL(varpsilt_next, next_of, ZONED);
DEFINE_CALL(varpsilt_next_ruled, next_of, RULED);
DEFINE_CALL(varpsilt_previous, previous_of, ZONED);
DEFINE_CALL(varpsilt_previous_ruled, previous_of, RULED);
DEFINE_CALL(varpsilt_matches, matches_of, ZONED);
DEFINE_CALL(varpsilt_matches_ruled, matches_of, RULED);
DEFINE_CALL(varpsilt_fires, fires_of, ZONED);
DEFINE_CALL(varpsilt_fires_ruled, fires_of, RULED);
