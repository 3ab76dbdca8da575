/*
 * The type `cron`: a text that means something. A value holds what the text means before the text, so nothing is read again:
 * the rule, the number of schedules, each schedule, and the text as it was written.
 */
#include "varpsilt.h"

#include "common/hashfn.h"
#include "libpq/pqformat.h"
#include "mb/pg_wchar.h"
#include "utils/builtins.h"

PG_MODULE_MAGIC;

/* In the flags of a schedule: what it has beside the sets that each has. */
enum { HAS_SECONDS = 1, HAS_YEARS = 2, HAS_LAST_DAY = 4 };

/* A word of a schedule, and as many of its bytes as a set of this unit fills. */
typedef struct part {
    uint8 flag; /* in which schedules it stands; 0: in all */
    uint8 size;
    uint16 place;
} part;

static const part PARTS[] = {
    {0, 8, offsetof(cron_c_schedule, minutes)},
    {0, 3, offsetof(cron_c_schedule, hours)},
    {0, 4, offsetof(cron_c_schedule, days_of_month)},
    {0, 2, offsetof(cron_c_schedule, months)},
    {0, 1, offsetof(cron_c_schedule, days_of_week)},
    {HAS_SECONDS, 8, offsetof(cron_c_schedule, seconds)},
    {HAS_YEARS, 8, offsetof(cron_c_schedule, years_from_1970)},
    {HAS_YEARS, 8, offsetof(cron_c_schedule, years_from_2034)},
    {HAS_YEARS, 1, offsetof(cron_c_schedule, years_from_2098)},
};

/* Second 0 in all years, as a crontab's schedules have it. */
static const cron_c_schedule PLAIN = {
    .seconds = 1, .years_from_1970 = UINT64_MAX, .years_from_2034 = UINT64_MAX, .years_from_2098 = 7};

/* The rule, the number of schedules, and each schedule with its flags. */
enum { FRONT = 2, MOST_PACKED = FRONT + CRON_C_QUARTZ_SCHEDULES * (1 + 8 + 3 + 4 + 2 + 1 + 8 + 8 + 8 + 1) };

static uint8 flags_of(const cron_c_schedule *schedule)
{
    const bool has_all_years = schedule->years_from_1970 == PLAIN.years_from_1970 &&
                               schedule->years_from_2034 == PLAIN.years_from_2034 &&
                               schedule->years_from_2098 == PLAIN.years_from_2098;
    return (schedule->seconds == PLAIN.seconds ? 0 : HAS_SECONDS) | (has_all_years ? 0 : HAS_YEARS) |
           (schedule->last_day == 0 ? 0 : HAS_LAST_DAY);
}

static bool stands_in(const part *word, uint8 flags)
{
    return word->flag == 0 || (word->flag & flags) != 0;
}

/* Writes a schedule, and returns where it ends. The first bytes of a word are its low ones, as everywhere on x86-64. */
static uint8 *pack_schedule(const cron_c_schedule *schedule, uint8 *to)
{
    const uint8 flags = flags_of(schedule);
    *to++ = flags;
    for (const part *word = PARTS; word < PARTS + lengthof(PARTS); word++) {
        if (stands_in(word, flags)) {
            memcpy(to, (const char *) schedule + word->place, word->size);
            to += word->size;
        }
    }
    return to;
}

static const uint8 *unpack_schedule(const uint8 *from, cron_c_schedule *schedule)
{
    const uint8 flags = *from++;
    *schedule = PLAIN;
    schedule->last_day = (flags & HAS_LAST_DAY) != 0;
    for (const part *word = PARTS; word < PARTS + lengthof(PARTS); word++) {
        if (stands_in(word, flags)) {
            memcpy((char *) schedule + word->place, from, word->size);
            from += word->size;
        }
    }
    return from;
}

/* Reads what a value means, and returns where its text begins. */
static const char *text_behind(const struct varlena *value, expression *read)
{
    const uint8 *from = (const uint8 *) VARDATA_ANY(value);
    read->rule = from[0];
    read->count = from[1];
    from += FRONT;
    for (size_t place = 0; place < read->count; place++) {
        from = unpack_schedule(from, &read->schedules[place]);
    }
    return (const char *) from;
}

void unpack_cron(const struct varlena *value, expression *read)
{
    text_behind(value, read);
}

static struct varlena *pack_cron(const expression *read, const char *text, size_t length)
{
    uint8 packed[MOST_PACKED] = {read->rule, read->count};
    uint8 *to = packed + FRONT;
    struct varlena *made;
    size_t size;
    for (size_t place = 0; place < read->count; place++) {
        to = pack_schedule(&read->schedules[place], to);
    }
    size = to - packed;
    made = palloc(VARHDRSZ + size + length);
    SET_VARSIZE(made, VARHDRSZ + size + length);
    memcpy(VARDATA(made), packed, size);
    memcpy(VARDATA(made) + size, text, length);
    return made;
}

/* Refuses a text, for what the library says. */
static void refuse_text(const char *text, char *message, size_t needed)
{
    message[needed] = '\0';
    ereport(ERROR,
            errcode(ERRCODE_INVALID_TEXT_REPRESENTATION),
            errmsg("invalid input syntax for type %s: \"%s\"", "cron", text),
            errdetail("%s", pg_any_to_server(message, needed, PG_UTF8)));
}

/* The value of a text in the encoding of the server. The library reads UTF-8, and so writes what it says. */
static struct varlena *cron_of(const char *text)
{
    const size_t length = strlen(text);
    const char *plain = pg_server_to_any(text, length, PG_UTF8);
    const size_t plain_length = plain == text ? length : strlen(plain);
    char *message = palloc(EXPRESSION_MESSAGE(plain_length) + 1);
    expression read;
    size_t needed;
    if (read_expression(plain, plain_length, &read, message, &needed) != CRON_C_OK) {
        refuse_text(text, message, needed);
    }
    pfree(message);
    return pack_cron(&read, text, length);
}

static char *text_of(const struct varlena *value)
{
    expression read;
    const char *text = text_behind(value, &read);
    return pnstrdup(text, (const char *) VARDATA_ANY(value) + VARSIZE_ANY_EXHDR(value) - text);
}

PG_FUNCTION_INFO_V1(varpsilt_in);
Datum varpsilt_in(PG_FUNCTION_ARGS)
{
    PG_RETURN_POINTER(cron_of(PG_GETARG_CSTRING(0)));
}

PG_FUNCTION_INFO_V1(varpsilt_out);
Datum varpsilt_out(PG_FUNCTION_ARGS)
{
    PG_RETURN_CSTRING(text_of(PG_GETARG_VARLENA_PP(0)));
}

PG_FUNCTION_INFO_V1(varpsilt_recv);
Datum varpsilt_recv(PG_FUNCTION_ARGS)
{
    StringInfo sent = (StringInfo) PG_GETARG_POINTER(0);
    int length;
    PG_RETURN_POINTER(cron_of(pq_getmsgtext(sent, sent->len - sent->cursor, &length)));
}

PG_FUNCTION_INFO_V1(varpsilt_send);
Datum varpsilt_send(PG_FUNCTION_ARGS)
{
    const char *text = text_of(PG_GETARG_VARLENA_PP(0));
    StringInfoData sent;
    pq_begintypsend(&sent);
    pq_sendtext(&sent, text, strlen(text));
    PG_RETURN_BYTEA_P(pq_endtypsend(&sent));
}

/* How two values are ordered. */
static int compare_values(FunctionCallInfo fcinfo)
{
    struct varlena *one = PG_GETARG_VARLENA_PP(0), *other = PG_GETARG_VARLENA_PP(1);
    expression of_one, of_other;
    int order;
    unpack_cron(one, &of_one);
    unpack_cron(other, &of_other);
    order = compare_expressions(&of_one, &of_other);
    PG_FREE_IF_COPY(one, 0);
    PG_FREE_IF_COPY(other, 1);
    return order;
}

PG_FUNCTION_INFO_V1(varpsilt_cmp);
Datum varpsilt_cmp(PG_FUNCTION_ARGS)
{
    PG_RETURN_INT32(compare_values(fcinfo));
}

#define DEFINE_COMPARISON(name, holds)              \
    PG_FUNCTION_INFO_V1(name);                      \
    Datum name(PG_FUNCTION_ARGS)                    \
    {                                               \
        const int order = compare_values(fcinfo);   \
        PG_RETURN_BOOL(order holds 0);              \
    }                                               \
    extern int varpsilt_ends_##name

DEFINE_COMPARISON(varpsilt_eq, ==);
DEFINE_COMPARISON(varpsilt_ne, !=);
DEFINE_COMPARISON(varpsilt_lt, <);
DEFINE_COMPARISON(varpsilt_le, <=);
DEFINE_COMPARISON(varpsilt_gt, >);
DEFINE_COMPARISON(varpsilt_ge, >=);

/* The bytes that equal values share: all in front of the text, since one set is packed in one way. */
static size_t packed_size(const struct varlena *value)
{
    expression read;
    return text_behind(value, &read) - (const char *) VARDATA_ANY(value);
}

PG_FUNCTION_INFO_V1(varpsilt_hash);
Datum varpsilt_hash(PG_FUNCTION_ARGS)
{
    struct varlena *value = PG_GETARG_VARLENA_PP(0);
    const Datum made = hash_any((const unsigned char *) VARDATA_ANY(value), packed_size(value));
    PG_FREE_IF_COPY(value, 0);
    PG_RETURN_DATUM(made);
}

PG_FUNCTION_INFO_V1(varpsilt_hash_extended);
Datum varpsilt_hash_extended(PG_FUNCTION_ARGS)
{
    struct varlena *value = PG_GETARG_VARLENA_PP(0);
    const Datum made = hash_any_extended((const unsigned char *) VARDATA_ANY(value), packed_size(value), PG_GETARG_INT64(1));
    PG_FREE_IF_COPY(value, 0);
    PG_RETURN_DATUM(made);
}
