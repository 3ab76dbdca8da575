/* Rows that walks, lists and pages of items must answer, and what texts and zones are read as. */
#include "rows.h"

static uint32_t after(const cron_c_schedule *schedule, const char *zone, int64_t instant, cron_c_item *item)
{
    return cron_c_after(schedule, named(zone), instant, item);
}

static uint32_t before(const cron_c_schedule *schedule, const char *zone, int64_t instant, cron_c_item *item)
{
    return cron_c_before(schedule, named(zone), instant, item);
}

static uint32_t next(const cron_c_schedule *schedule, const char *zone, cron_c_item *item)
{
    return cron_c_next(schedule, named(zone), item);
}

static uint32_t prev(const cron_c_schedule *schedule, const char *zone, cron_c_item *item)
{
    return cron_c_prev(schedule, named(zone), item);
}

/* The first run, ahead and back. */
static void first_run(void)
{
    cron_c_schedule schedule = parsed("0 0,30 9 * * 2");
    cron_c_item item = {0, 0, 0};
    CHECK(schedule.minutes == (UINT64_C(1) | UINT64_C(1) << 30));
    CHECK(schedule.days_of_week == UINT64_C(1) << 1);
    CHECK(after(&schedule, "UTC", 1704067200, &item) == CRON_C_OK);
    CHECK(shows(&item, "2024-01-01 09:00:00 +00:00"));
    CHECK(next(&schedule, "UTC", &item) == CRON_C_OK);
    CHECK(shows(&item, "2024-01-01 09:30:00 +00:00"));
    CHECK(next(&schedule, "UTC", &item) == CRON_C_OK);
    CHECK(shows(&item, "2024-01-08 09:00:00 +00:00"));
    CHECK(prev(&schedule, "UTC", &item) == CRON_C_OK);
    CHECK(shows(&item, "2024-01-01 09:30:00 +00:00"));
    CHECK(before(&schedule, "UTC", 1704067200, &item) == CRON_C_OK);
    CHECK(shows(&item, "2023-12-25 09:30:00 +00:00"));
}

/* The last day of each month, as it is read and as any number but 0 says it. */
static void last_days(void)
{
    cron_c_schedule schedule = parsed("0 0 0 L * ?");
    cron_c_schedule daily = parsed("@daily");
    cron_c_item item = {0, 0, 0};
    CHECK(schedule.last_day == 1 && schedule.days_of_month == 0 && daily.last_day == 0);
    schedule.last_day = 512;
    CHECK(after(&schedule, "UTC", 1705276800, &item) == CRON_C_OK);
    CHECK(shows(&item, "2024-01-31 00:00:00 +00:00"));
    CHECK(next(&schedule, "UTC", &item) == CRON_C_OK);
    CHECK(shows(&item, "2024-02-29 00:00:00 +00:00"));
    schedule.last_day = 0;
    CHECK(after(&schedule, "UTC", 1705276800, &item) == CRON_C_NO_ITEM);
}

/* A message that doesn't fit, and texts that aren't read. */
static void refusals(void)
{
    const char *told = "Hours must be less than 23. ('25' specified.)";
    const char *text = "0 0 25 * * *";
    const char not_utf8[] = {'*', (char)0xff};
    cron_c_schedule schedule;
    char message[64];
    size_t needed = 0;
    memset(&schedule, 7, sizeof schedule);
    memset(message, '.', sizeof message);
    CHECK(cron_c_parse(text, strlen(text), &schedule, message, 5, &needed) == CRON_C_REFUSED);
    CHECK(needed == strlen(told));
    CHECK(memcmp(message, "Hours.", 6) == 0);
    CHECK(schedule.seconds == UINT64_C(0x0707070707070707));
    CHECK(cron_c_parse(text, strlen(text), &schedule, message, 0, &needed) == CRON_C_REFUSED);
    CHECK(needed == strlen(told));
    CHECK(cron_c_parse(text, strlen(text), &schedule, message, sizeof message, &needed) == CRON_C_REFUSED);
    CHECK(memcmp(message, told, needed) == 0);
    CHECK(message[needed] == '.');
    CHECK(cron_c_parse(not_utf8, sizeof not_utf8, &schedule, message, sizeof message, &needed) == CRON_C_NOT_UTF8);
    CHECK(needed == 0);
}

/* Zones, instants and items that aren't any. */
static void arguments(void)
{
    cron_c_schedule schedule = parsed("0 0 9 * * *");
    cron_c_item item = {7, 7, 0};
    char text[CRON_C_ITEM_TEXT];
    size_t needed = 1;
    CHECK(after(&schedule, "Mars", 0, &item) == CRON_C_BAD_ZONE);
    CHECK(next(&schedule, "\xff", &item) == CRON_C_BAD_ZONE);
    CHECK(after(&schedule, "UTC", INT64_MAX, &item) == CRON_C_BAD_INSTANT);
    CHECK(before(&schedule, "UTC", INT64_MIN, &item) == CRON_C_BAD_INSTANT);
    CHECK(item.instant == 7 && item.offset == 7);
    CHECK(next(&schedule, "UTC", &item) == CRON_C_NOT_AN_ITEM);
    item.instant = INT64_MAX;
    item.offset = INT32_MAX;
    CHECK(prev(&schedule, "UTC", &item) == CRON_C_NOT_AN_ITEM);
    CHECK(cron_c_format(&item, text, sizeof text, &needed) == CRON_C_NOT_AN_ITEM);
    CHECK(needed == 0);
    item.offset = 0;
    CHECK(next(&schedule, "UTC", &item) == CRON_C_NOT_AN_ITEM);
    CHECK(after(&schedule, "UTC", INT64_C(4133980800), &item) == CRON_C_NO_ITEM);
    CHECK(before(&schedule, "UTC", 0, &item) == CRON_C_NO_ITEM);
    CHECK(before(&schedule, "UTC", INT64_C(253402207200), &item) == CRON_C_OK);
    CHECK(shows(&item, "2100-12-31 09:00:00 +00:00"));
    CHECK(next(&schedule, "UTC", &item) == CRON_C_NO_ITEM);
    CHECK(shows(&item, "2100-12-31 09:00:00 +00:00"));
}

/* Clocks that show the first and the last second of the range, and those beside them. */
static void range(void)
{
    const cron_c_item first = {-1, 1, 0}, last = {INT64_C(4133980801), -2, 0};
    const cron_c_item outside[] = {{-1, 0, 0}, {0, -1, 0}, {INT64_C(4133980800), 0, 0}, {INT64_C(4133980799), 1, 0}};
    CHECK(shows(&first, "1970-01-01 00:00:00 +00:00:01"));
    CHECK(shows(&last, "2100-12-31 23:59:59 -00:00:02"));
    for (size_t at = 0; at < sizeof outside / sizeof *outside; at++) {
        size_t needed = 1;
        CHECK(cron_c_format(&outside[at], CRON_C_NO_TEXT, &needed) == CRON_C_NOT_AN_ITEM && needed == 0);
    }
}

/* Both items of a fold, both ways. */
static void fold(void)
{
    cron_c_schedule schedule = parsed("0 0 * * * *");
    cron_c_item item;
    CHECK(after(&schedule, CHICAGO, 1667712600, &item) == CRON_C_OK);
    CHECK(item.instant == 1667714400 && item.offset == -5 * 3600);
    CHECK(next(&schedule, CHICAGO, &item) == CRON_C_OK);
    CHECK(shows(&item, "2022-11-06 01:00:00 -06:00"));
    CHECK(item.instant == 1667718000);
    CHECK(next(&schedule, CHICAGO, &item) == CRON_C_OK);
    CHECK(shows(&item, "2022-11-06 02:00:00 -06:00"));
    CHECK(prev(&schedule, CHICAGO, &item) == CRON_C_OK);
    CHECK(prev(&schedule, CHICAGO, &item) == CRON_C_OK);
    CHECK(shows(&item, "2022-11-06 01:00:00 -05:00"));
    item.offset = -6 * 3600;
    CHECK(next(&schedule, CHICAGO, &item) == CRON_C_NOT_AN_ITEM);
}

/* Items at once, as those one by one, and where the timeline ends. */
static void lists(void)
{
    cron_c_schedule schedule = parsed("0 0 * * * *"), last = parsed("0 0 0 31 12 * 2099-2100");
    cron_c_item items[4], item;
    size_t count = 7;
    memset(items, 0, sizeof items);
    CHECK(cron_c_list_after(&schedule, named(CHICAGO), 1667712600, items, 3, &count) == CRON_C_OK);
    CHECK(count == 3);
    CHECK(after(&schedule, CHICAGO, 1667712600, &item) == CRON_C_OK);
    for (size_t place = 0; place < count; place++) {
        CHECK(items[place].instant == item.instant && items[place].offset == item.offset);
        CHECK(next(&schedule, CHICAGO, &item) == CRON_C_OK);
    }
    CHECK(items[3].instant == 0);
    CHECK(cron_c_list_before(&last, named("UTC"), INT64_C(253402207200), items, 4, &count) == CRON_C_OK);
    CHECK(count == 2);
    CHECK(shows(&items[0], "2100-12-31 00:00:00 +00:00"));
    CHECK(shows(&items[1], "2099-12-31 00:00:00 +00:00"));
    CHECK(cron_c_list_after(&last, named("Mars"), 0, items, 4, &count) == CRON_C_BAD_ZONE);
    CHECK(count == 0);
    CHECK(cron_c_list_after(&last, named("UTC"), INT64_MAX, items, 4, &count) == CRON_C_BAD_INSTANT);
    CHECK(cron_c_list_after(&last, named("UTC"), 0, items, 0, &count) == CRON_C_OK);
    CHECK(count == 0);
}

/* Pages of two over a fold, both ways: each item once, as one by one. */
static void pages(void)
{
    cron_c_schedule schedule = parsed("0 0 * * * *");
    cron_c_item items[2], last, item;
    size_t count = 0;
    CHECK(after(&schedule, CHICAGO, 1667705400, &item) == CRON_C_OK);
    CHECK(cron_c_list_after(&schedule, named(CHICAGO), 1667705400, items, 2, &count) == CRON_C_OK);
    for (int page = 0; page < 5; page++) {
        CHECK(count == 2);
        for (size_t place = 0; place < count; place++) {
            last = items[place];
            CHECK(last.instant == item.instant && last.offset == item.offset);
            CHECK(next(&schedule, CHICAGO, &item) == CRON_C_OK);
        }
        CHECK(cron_c_list_next(&schedule, named(CHICAGO), &last, items, 2, &count) == CRON_C_OK);
    }
    for (int page = 0; page < 5; page++) {
        CHECK(cron_c_list_prev(&schedule, named(CHICAGO), &item, items, 2, &count) == CRON_C_OK);
        CHECK(count == 2);
        for (size_t place = 0; place < count; place++) {
            CHECK(prev(&schedule, CHICAGO, &item) == CRON_C_OK);
            CHECK(items[place].instant == item.instant && items[place].offset == item.offset);
        }
    }
    item.instant++;
    CHECK(cron_c_list_next(&schedule, named(CHICAGO), &item, items, 2, &count) == CRON_C_NOT_AN_ITEM);
    CHECK(count == 0);
    CHECK(cron_c_list_prev(&schedule, named("Mars"), &item, items, 2, &count) == CRON_C_BAD_ZONE);
}

/* Bits outside a unit mean nothing. */
static void bits(void)
{
    cron_c_schedule schedule, every = parsed("* * * * * *");
    cron_c_item item, other;
    memset(&schedule, 0xff, sizeof schedule);
    CHECK(after(&schedule, "UTC", 1704067200, &item) == CRON_C_OK);
    CHECK(after(&every, "UTC", 1704067200, &other) == CRON_C_OK);
    CHECK(item.instant == 1704067201 && other.instant == 1704067201);
    schedule.months = ~UINT64_C(0xfff);
    CHECK(after(&schedule, "UTC", 1704067200, &item) == CRON_C_NO_ITEM);
    memset(&schedule, 0, sizeof schedule);
    CHECK(before(&schedule, "UTC", 1704067200, &item) == CRON_C_NO_ITEM);
}

/* The version, the texts of statuses, the reserved words, and texts that aren't wanted. */
static void constants(void)
{
    const char *text = "0 0 25 * * *";
    cron_c_schedule schedule;
    cron_c_item item = {7, 7, 0};
    size_t needed = 0;
    memset(&schedule, 0xff, sizeof schedule);
    CHECK(cron_c_version() == CRON_C_VERSION);
    CHECK(cron_c_parse(text, strlen(text), &schedule, CRON_C_NO_TEXT, &needed) == CRON_C_REFUSED);
    CHECK(needed > 0 && needed < CRON_C_MESSAGE(strlen(text)));
    CHECK(cron_c_parse(CRON_C_TEXT("@daily"), &schedule, CRON_C_NO_TEXT, &needed) == CRON_C_OK);
    CHECK(schedule.reserved[0] == 0 && schedule.reserved[5] == 0);
    CHECK(cron_c_fire_after(&schedule, named("UTC"), 0, &item) == CRON_C_OK);
    CHECK(item.instant == 86400 && item.offset == 0 && item.reserved == 0);
    CHECK(cron_c_format(&item, CRON_C_NO_TEXT, &needed) == CRON_C_OK && needed <= CRON_C_ITEM_TEXT);
    item.reserved = 1;
    CHECK(cron_c_format(&item, CRON_C_NO_TEXT, &needed) == CRON_C_NOT_AN_ITEM);
    CHECK(cron_c_next(&schedule, named("UTC"), &item) == CRON_C_NOT_AN_ITEM);
    for (uint32_t status = CRON_C_OK; status <= CRON_C_NO_MEMORY; status++) {
        CHECK(strcmp(cron_c_status_text(status), cron_c_status_text(CRON_C_NO_MEMORY + 1)) != 0);
    }
    CHECK(cron_c_fire_after(&schedule, named("UTC"), CRON_C_LEAST_INSTANT, &item) == CRON_C_OK);
    CHECK(cron_c_fire_by(&schedule, named("UTC"), CRON_C_GREATEST_INSTANT, &item) == CRON_C_OK);
    CHECK(cron_c_fire_by(&schedule, named("UTC"), CRON_C_GREATEST_INSTANT + 1, &item) == CRON_C_BAD_INSTANT);
}

/* Zones as numbers, as they are read, written by hand, and of no zone. */
static void zones(void)
{
    const cron_c_zone utc = CRON_C_ZONE_UTC, fixed = CRON_C_ZONE_FIXED(-6 * 3600);
    cron_c_schedule schedule = parsed("0 30 9 * * *");
    cron_c_zone zone, bad;
    cron_c_item item, other;
    memset(&zone, 0xff, sizeof zone);
    CHECK(cron_c_zone_parse(CRON_C_TEXT("CST6CDT,M3.2.0,M11.1.0/1:30"), &zone) == CRON_C_OK);
    CHECK(zone.kind == 2 && zone.offset == -6 * 3600 && zone.saving == -5 * 3600);
    CHECK(zone.starts.kind == 3 && zone.starts.month == 3 && zone.starts.week == 2 && zone.starts.day == 0);
    CHECK(zone.starts.time == 7200 && zone.ends.month == 11 && zone.ends.week == 1 && zone.ends.time == 5400);
    CHECK(zone.reserved[0] == 0 && zone.reserved[2] == 0);
    bad = zone;
    CHECK(cron_c_zone_parse(CRON_C_TEXT("America/Chicago"), &zone) == CRON_C_BAD_ZONE);
    CHECK(cron_c_zone_parse(CRON_C_TEXT("\xff"), &zone) == CRON_C_BAD_ZONE);
    CHECK(memcmp(&zone, &bad, sizeof zone) == 0);
    CHECK(cron_c_zone_parse(CRON_C_TEXT("AAA0BBB,J60/0,364/-167"), &zone) == CRON_C_OK);
    CHECK(zone.starts.kind == 1 && zone.starts.day == 60 && zone.ends.kind == 2 && zone.ends.day == 364);
    CHECK(zone.ends.time == -167 * 3600 && zone.saving == 3600);
    CHECK(cron_c_zone_parse(CRON_C_TEXT("CST6"), &zone) == CRON_C_OK && memcmp(&zone, &fixed, sizeof zone) == 0);
    CHECK(cron_c_zone_parse(CRON_C_TEXT("UTC"), &zone) == CRON_C_OK && memcmp(&zone, &utc, sizeof zone) == 0);
    CHECK(cron_c_fire_after(&schedule, &fixed, 1704067200, &item) == CRON_C_OK);
    CHECK(item.instant == 1704067200 + 15 * 3600 + 1800 && item.offset == -6 * 3600);
    CHECK(cron_c_after(&schedule, named("CST6"), 1704067200, &other) == CRON_C_OK);
    CHECK(memcmp(&item, &other, sizeof item) == 0);
    bad.starts.day = 7;
    CHECK(cron_c_next(&schedule, &bad, &item) == CRON_C_BAD_ZONE);
    bad.starts.day = 0;
    bad.ends.week = 6;
    CHECK(cron_c_fire_by(&schedule, &bad, 0, &item) == CRON_C_BAD_ZONE);
    bad.ends.week = 5;
    bad.ends.time = 604800;
    CHECK(cron_c_before(&schedule, &bad, 0, &item) == CRON_C_BAD_ZONE);
    bad.ends.time = 604799;
    bad.saving = 93600;
    CHECK(cron_c_fire_at(&schedule, &bad, 0, &item) == CRON_C_BAD_ZONE);
    bad.saving = 93599;
    CHECK(cron_c_fire_after(&schedule, &bad, 0, &item) == CRON_C_OK);
}

int main(void)
{
    first_run();
    last_days();
    refusals();
    arguments();
    range();
    fold();
    lists();
    pages();
    bits();
    constants();
    zones();
    tell_held("walks");
    return 0;
}
