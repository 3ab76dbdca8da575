/*
 * The zones of the server as the library takes them: eras of one offset each. They come from what the server itself has read of
 * its zone files, and the server tells it by the transitions, so both always agree.
 */
#include "varpsilt.h"

#include "pgtime.h"
#include "parser/scansup.h"
#include "utils/datetime.h"
#include "utils/hsearch.h"
#include "utils/memutils.h"

/*
 * The first and the last instant whose offset counts: ten days before 1970 and after 2100, in seconds since 1970. What fires lies
 * between them, and so does each instant at which a clock could show it.
 */
static const pg_time_t FIRST = -864000, LAST = INT64CONST(4134844800);

static HTAB *zones;
static MemoryContext room;

/* Eras that are being collected. */
typedef struct growing {
    cron_c_era *eras;
    size_t length, capacity;
} growing;

/* Adds an era, unless its offset is that of the one before it. */
static void add_era(growing *made, int64 starts, long offset)
{
    const cron_c_zone fixed = CRON_C_ZONE_FIXED(offset);
    if (made->length > 0 && made->eras[made->length - 1].zone.offset == offset) {
        return;
    }
    if (made->length == made->capacity) {
        made->capacity *= 2;
        made->eras = repalloc(made->eras, made->capacity * sizeof(cron_c_era));
    }
    made->eras[made->length++] = (cron_c_era){starts, fixed};
}

static growing collect_eras(const pg_tz *zone)
{
    growing made = {palloc(64 * sizeof(cron_c_era)), 0, 64};
    pg_time_t now = FIRST, boundary;
    long before, after;
    int was_saving, is_saving, told;
    do {
        told = pg_next_dst_boundary(&now, &before, &was_saving, &boundary, &after, &is_saving, zone);
        if (made.length == 0) {
            add_era(&made, INT64_MIN, before);
        }
        if (told == 1) {
            add_era(&made, boundary, after);
            now = boundary;
        }
    } while (told == 1 && now < LAST);
    return made;
}

static void begin_zones(void)
{
    HASHCTL how = {.keysize = sizeof(void *), .entrysize = sizeof(zone_eras)};
    room = AllocSetContextCreate(TopMemoryContext, "varpsilt zones", ALLOCSET_DEFAULT_SIZES);
    how.hcxt = room;
    zones = hash_create("varpsilt zones", 16, &how, HASH_ELEM | HASH_BLOBS | HASH_CONTEXT);
}

/* Makes the eras of a zone, and keeps them. Where memory runs out nothing is kept. */
static const zone_eras *keep_zone(const pg_tz *zone)
{
    growing made = collect_eras(zone);
    const size_t size = made.length * sizeof(cron_c_era);
    cron_c_era *kept;
    zone_eras *entry;
    if (cron_c_history_check(made.eras, made.length) != CRON_C_OK) {
        ereport(ERROR,
                errcode(ERRCODE_INVALID_PARAMETER_VALUE),
                errmsg("time zone \"%s\" has an offset out of range", pg_get_timezone_name((pg_tz *) zone)));
    }
    kept = MemoryContextAlloc(room, size);
    memcpy(kept, made.eras, size);
    pfree(made.eras);
    entry = hash_search(zones, &zone, HASH_ENTER, NULL);
    entry->eras = kept;
    entry->length = made.length;
    return entry;
}

static const zone_eras *eras_of(const pg_tz *zone)
{
    const zone_eras *known;
    if (zones == NULL) {
        begin_zones();
    }
    known = hash_search(zones, &zone, HASH_FIND, NULL);
    return known != NULL ? known : keep_zone(zone);
}

/*
 * The zone of a name, or NULL. An abbreviation that has one offset is a clock at this offset. One whose offset has changed is the
 * zone that it belongs to.
 */
static pg_tz *find_zone(const char *name)
{
    char *small = downcase_truncate_identifier(name, strlen(name), false);
    pg_tz *zone = NULL;
    int offset;
    switch (DecodeTimezoneAbbrev(0, small, &offset, &zone)) {
        case TZ:
        case DTZ: return pg_tzset_offset(-offset); /* which counts them to the west */
        case DYNTZ: return zone;
        default: return pg_tzset(name);
    }
}

const zone_eras *zone_of_name(const char *name)
{
    pg_tz *zone = strlen(name) <= TZ_STRLEN_MAX ? find_zone(name) : NULL;
    if (zone == NULL) {
        ereport(ERROR,
                errcode(ERRCODE_INVALID_PARAMETER_VALUE),
                errmsg("time zone \"%s\" not recognized", name));
    }
    if (!pg_tz_acceptable(zone)) {
        ereport(ERROR,
                errcode(ERRCODE_INVALID_PARAMETER_VALUE),
                errmsg("time zone \"%s\" appears to use leap seconds", name),
                errdetail("PostgreSQL does not support leap seconds."));
    }
    return eras_of(zone);
}

const zone_eras *zone_of_session(void)
{
    return eras_of(session_timezone);
}
