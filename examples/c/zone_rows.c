/* Rows that the call must answer which reads a compiled zone file. */
#include "edge.h"
#include "pyongyang.h"
#include "rows.h"

/* The transitions of Pyongyang, as `zdump` tells them, and a place that no call may write to. */
enum { ERAS = 6, ROOM = ERAS + 1 };
static const int64_t STARTS[ERAS] = {INT64_MIN, -1948782180, -1830414600, -768646800, 1439564400, 1525446000};
static const int32_t OFFSETS[ERAS] = {30180, 30600, 32400, 32400, 30600, 32400};

static cron_c_era eras[ROOM], untouched[ROOM];

static uint32_t read_bytes(const uint8_t *bytes, size_t length, size_t room, size_t *count)
{
    *count = 9;
    memset(eras, 0x5a, sizeof eras);
    memcpy(untouched, eras, sizeof eras);
    return cron_c_history_read(bytes, length, eras, room, count);
}

static int nothing_is_written(void)
{
    return memcmp(eras, untouched, sizeof eras) == 0;
}

static void changes(void)
{
    size_t count;
    CHECK(read_bytes(PYONGYANG, sizeof PYONGYANG, ROOM, &count) == CRON_C_OK && count == ERAS);
    for (size_t place = 0; place < ERAS; place++) {
        CHECK(eras[place].starts == STARTS[place]);
        CHECK(eras[place].zone.kind == 1 && eras[place].zone.offset == OFFSETS[place]);
    }
    CHECK(memcmp(eras + ERAS, untouched + ERAS, sizeof *eras) == 0);
}

static void too_short_arrays(void)
{
    size_t count;
    for (size_t room = 0; room < ERAS; room++) {
        CHECK(read_bytes(PYONGYANG, sizeof PYONGYANG, room, &count) == CRON_C_MORE && count == ERAS && nothing_is_written());
    }
    CHECK(read_bytes(PYONGYANG, sizeof PYONGYANG, ERAS, &count) == CRON_C_OK && count == ERAS);
}

/* Bytes that end early, at a page that can't be touched. */
static void bytes_that_end_early(void)
{
    static unsigned char *end;
    size_t count;
    for (size_t length = 0; length < sizeof PYONGYANG; length++) {
        uint8_t *bytes = before_edge(&end, length);
        memcpy(bytes, PYONGYANG, length);
        CHECK(read_bytes(bytes, length, ROOM, &count) == CRON_C_BAD_ZONE && count == 0 && nothing_is_written());
    }
}

/* The first change of the table of eight bytes a time, and the footer. */
enum { FIRST_CHANGE = 149, FOOTER = 7 };

static void changes_at_one_second(void)
{
    uint8_t bytes[sizeof PYONGYANG];
    size_t count;
    memcpy(bytes, PYONGYANG, sizeof bytes);
    memcpy(bytes + FIRST_CHANGE + 8, bytes + FIRST_CHANGE, 8);
    CHECK(read_bytes(bytes, sizeof bytes, ROOM, &count) == CRON_C_BAD_ZONE && count == 0 && nothing_is_written());
}

/* Reads the table with another footer. */
static uint32_t with_footer(const char *footer, size_t *count)
{
    const size_t table = sizeof PYONGYANG - FOOTER;
    uint8_t bytes[sizeof PYONGYANG + 40];
    memcpy(bytes, PYONGYANG, table);
    memcpy(bytes + table, footer, strlen(footer));
    return read_bytes(bytes, table + strlen(footer), ROOM, count);
}

static void footers(void)
{
    size_t count;
    CHECK(with_footer("\nKST-9\n", &count) == CRON_C_OK && eras[5].zone.kind == 1);
    CHECK(with_footer("\n\n", &count) == CRON_C_OK && count == ERAS && eras[5].zone.kind == 1 && eras[5].zone.offset == 32400);
    CHECK(with_footer("\nKST-9KDT,M10.1.0,M4.5.0/3\n", &count) == CRON_C_OK && count == ERAS);
    const cron_c_zone *zone = &eras[5].zone;
    CHECK(zone->kind == 2 && zone->offset == 32400 && zone->saving == 36000);
    CHECK(zone->starts.kind == 3 && zone->starts.month == 10 && zone->starts.week == 1 && zone->starts.day == 0 && zone->starts.time == 7200);
    CHECK(zone->ends.kind == 3 && zone->ends.month == 4 && zone->ends.week == 5 && zone->ends.day == 0 && zone->ends.time == 10800);
    /* By this rule the clock has its saving in May 2018, and by the table it hasn't. */
    CHECK(with_footer("\nKST-9KDT,M4.1.0,M10.1.0\n", &count) == CRON_C_BAD_ZONE && count == 0 && nothing_is_written());
    CHECK(with_footer("\nKST\n", &count) == CRON_C_BAD_ZONE && nothing_is_written());
    CHECK(with_footer("\nKST-9", &count) == CRON_C_BAD_ZONE && nothing_is_written());
}

/* The first of the flags of saving, in the table of four bytes a time and in that of eight, and the type past the last change. */
enum { SHORT_FLAG = 73, FLAG = 198, TYPE_BYTES = 6, TYPES = 4, LAST_TYPE = 3 };

/* The version of the file and that of its second table, whose header comes behind the first one. */
enum { VERSION = 4, SHORT_TABLE = 105 };

/* Reads so many of the bytes with another one at a place. */
static uint32_t with_byte(size_t length, size_t place, int byte, uint8_t version, size_t *count)
{
    uint8_t bytes[sizeof PYONGYANG];
    memcpy(bytes, PYONGYANG, sizeof bytes);
    bytes[VERSION] = bytes[SHORT_TABLE + VERSION] = version;
    bytes[place] = (uint8_t)byte;
    return read_bytes(bytes, length, ROOM, count);
}

/* A flag of saving is 0 or 1, in the table that is read. By the rule behind it the last type has no saving. */
static void flags_of_saving(void)
{
    size_t count;
    for (size_t type = 0; type < TYPES; type++) {
        const size_t place = type * TYPE_BYTES;
        CHECK(with_byte(sizeof PYONGYANG, FLAG + place, 1, '2', &count) == (type == LAST_TYPE ? CRON_C_BAD_ZONE : CRON_C_OK));
        CHECK(with_byte(SHORT_TABLE, SHORT_FLAG + place, 1, 0, &count) == CRON_C_OK && count == ERAS);
        for (int flag = 2; flag < 256; flag++) {
            CHECK(with_byte(sizeof PYONGYANG, FLAG + place, flag, '2', &count) == CRON_C_BAD_ZONE && count == 0 && nothing_is_written());
            CHECK(with_byte(SHORT_TABLE, SHORT_FLAG + place, flag, 0, &count) == CRON_C_BAD_ZONE && count == 0 && nothing_is_written());
            CHECK(with_byte(sizeof PYONGYANG, SHORT_FLAG + place, flag, '2', &count) == CRON_C_OK && count == ERAS);
        }
    }
}

/* What the format has readers pass over: a later version, and bytes behind the last line. */
static void later_files(void)
{
    size_t count;
    CHECK(with_byte(sizeof PYONGYANG, SHORT_FLAG, 0, '9', &count) == CRON_C_OK && count == ERAS);
    CHECK(with_footer("\nKST-9\nTZif", &count) == CRON_C_OK && count == ERAS);
}

int main(void)
{
    changes();
    too_short_arrays();
    bytes_that_end_early();
    changes_at_one_second();
    footers();
    flags_of_saving();
    later_files();
    tell_held("zone files");
    return 0;
}
