/* Rows that the calls by instants must answer, also over a zone with a history. */
#include "rows.h"

static uint32_t fire_after(const cron_c_schedule *schedule, const char *zone, int64_t instant, cron_c_item *item)
{
    return cron_c_fire_after(schedule, named(zone), instant, item);
}

static uint32_t fire_by(const cron_c_schedule *schedule, const char *zone, int64_t instant, cron_c_item *item)
{
    return cron_c_fire_by(schedule, named(zone), instant, item);
}

/* Items by instants in a fold, where a walk begun anew leaves one out or answers its start. */
static void fires(void)
{
    cron_c_schedule half_past = parsed("0 30 1 * * *"), last_second = parsed("59 59 1 * * *");
    cron_c_item item = {7, 7, 0};
    CHECK(fire_after(&half_past, CHICAGO, 1667716199, &item) == CRON_C_OK);
    CHECK(item.instant == 1667716200 && item.offset == -5 * 3600);
    CHECK(fire_after(&half_past, CHICAGO, item.instant, &item) == CRON_C_OK);
    CHECK(item.instant == 1667719800 && item.offset == -6 * 3600);
    CHECK(fire_after(&half_past, CHICAGO, item.instant, &item) == CRON_C_OK);
    CHECK(shows(&item, "2022-11-07 01:30:00 -06:00"));
    CHECK(fire_by(&half_past, CHICAGO, 1667719800, &item) == CRON_C_OK);
    CHECK(item.instant == 1667719800);
    CHECK(fire_by(&half_past, CHICAGO, 1667719799, &item) == CRON_C_OK);
    CHECK(item.instant == 1667716200);
    CHECK(cron_c_after(&last_second, named(CHICAGO), 1667717999, &item) == CRON_C_OK);
    CHECK(item.instant == 1667717999);
    CHECK(fire_after(&last_second, CHICAGO, 1667717999, &item) == CRON_C_OK);
    CHECK(item.instant == 1667721599 && item.offset == -6 * 3600);
}

/* Zones and instants that aren't any, and the ends of the timeline, by instants. */
static void ends_of_fires(void)
{
    cron_c_schedule schedule = parsed("0 0 9 * * *");
    cron_c_item item = {7, 7, 0};
    CHECK(fire_after(&schedule, "Mars", 0, &item) == CRON_C_BAD_ZONE);
    CHECK(fire_by(&schedule, "\xff", 0, &item) == CRON_C_BAD_ZONE);
    CHECK(fire_after(&schedule, "UTC", INT64_C(253402207201), &item) == CRON_C_BAD_INSTANT);
    CHECK(fire_by(&schedule, "UTC", INT64_C(-377705023202), &item) == CRON_C_BAD_INSTANT);
    CHECK(fire_after(&schedule, "UTC", INT64_C(4133926800), &item) == CRON_C_NO_ITEM);
    CHECK(fire_by(&schedule, "UTC", 32399, &item) == CRON_C_NO_ITEM);
    CHECK(item.instant == 7 && item.offset == 7);
    CHECK(fire_after(&schedule, "UTC", INT64_C(-377705023201), &item) == CRON_C_OK);
    CHECK(shows(&item, "1970-01-01 09:00:00 +00:00"));
    CHECK(fire_by(&schedule, "UTC", INT64_C(253402207200), &item) == CRON_C_OK);
    CHECK(shows(&item, "2100-12-31 09:00:00 +00:00"));
}

static uint32_t fires_between(const cron_c_schedule *schedule, const char *zone, int64_t last, int64_t now, cron_c_item *items,
                              size_t length, size_t *count)
{
    return cron_c_fires_between(schedule, named(zone), last, now, items, length, count);
}

static uint32_t fires_past(const cron_c_schedule *schedule, const char *zone, const cron_c_item *item, int64_t now,
                           cron_c_item *items, size_t length, size_t *count)
{
    return cron_c_fires_past(schedule, named(zone), item, now, items, length, count);
}

/* Two items at each of the half past one's of 2022-11-06, in pages of one, and the whole at once. */
static void runs(void)
{
    const int64_t last = 1667716199, now = 1667719800;
    cron_c_schedule schedule = parsed("0,1 30 1 * * *");
    cron_c_item items[5], item = {7, 7, 0};
    size_t count = 7;
    memset(items, 0, sizeof items);
    CHECK(fires_between(&schedule, CHICAGO, last, now, items, 5, &count) == CRON_C_OK);
    CHECK(count == 3 && items[3].instant == 0);
    CHECK(items[0].instant == 1667716200 && items[1].instant == 1667716201 && items[2].instant == 1667719800);
    CHECK(items[1].offset == -5 * 3600 && items[2].offset == -6 * 3600);
    CHECK(fires_between(&schedule, CHICAGO, last, now, items, 3, &count) == CRON_C_OK && count == 3);
    CHECK(fires_between(&schedule, CHICAGO, last, now, items, 2, &count) == CRON_C_MORE && count == 2);
    item = items[1];
    CHECK(fires_past(&schedule, CHICAGO, &item, now, items, 1, &count) == CRON_C_OK && count == 1);
    CHECK(items[0].instant == 1667719800);
    CHECK(fires_past(&schedule, CHICAGO, &item, now + 1, items, 1, &count) == CRON_C_MORE && count == 1);
    CHECK(fires_past(&schedule, CHICAGO, &item, now + 1, items, 2, &count) == CRON_C_OK && count == 2);
    CHECK(fires_past(&schedule, CHICAGO, &item, now - 1, items, 2, &count) == CRON_C_OK && count == 0);
    CHECK(fires_between(&schedule, CHICAGO, last, now, items, 0, &count) == CRON_C_MORE && count == 0);
    CHECK(fires_between(&schedule, CHICAGO, now, now, items, 5, &count) == CRON_C_OK && count == 0);
    CHECK(fires_between(&schedule, CHICAGO, now, last, items, 5, &count) == CRON_C_OK && count == 0);
}

/* In this zone half an hour of instants is shared on 2001-04-10: 00:30Z is 23:30 -01:00 and 00:30 +00:00. */
static void shared_instants(void)
{
    const char *zone = "AAA0BBB1,J100/1:30,J100/0";
    const int64_t last = 986862599, now = 986862600;
    cron_c_schedule schedule = parsed("0 30 0,23 * * *");
    cron_c_item items[2], item;
    size_t count = 7;
    CHECK(fires_between(&schedule, zone, last, now, items, 2, &count) == CRON_C_OK);
    CHECK(count == 2 && items[0].instant == now && items[1].instant == now);
    CHECK(items[0].offset == -3600 && items[1].offset == 0);
    item = items[0];
    CHECK(fires_past(&schedule, zone, &item, now, items, 2, &count) == CRON_C_OK);
    CHECK(count == 1 && items[0].instant == now && items[0].offset == 0);
    CHECK(cron_c_fire_at(&schedule, named(zone), now, &item) == CRON_C_OK);
    CHECK(item.instant == now && item.offset == 0);
}

/* Runs and instants whose arguments aren't any. */
static void arguments_of_runs(void)
{
    cron_c_schedule schedule = parsed("0 0 9 * * *");
    cron_c_item items[2], item = {7, 7, 0}, none = {INT64_MAX, 0, 0}, outside = {INT64_C(4133980800), 0, 0};
    size_t count = 7;
    CHECK(fires_between(&schedule, "Mars", 0, 1, items, 2, &count) == CRON_C_BAD_ZONE && count == 0);
    CHECK(fires_between(&schedule, "UTC", INT64_MIN, 1, items, 2, &count) == CRON_C_BAD_INSTANT && count == 0);
    CHECK(fires_between(&schedule, "UTC", 0, INT64_MAX, items, 2, &count) == CRON_C_BAD_INSTANT && count == 0);
    CHECK(fires_past(&schedule, "\xff", &item, 0, items, 2, &count) == CRON_C_BAD_ZONE && count == 0);
    CHECK(fires_past(&schedule, "UTC", &none, 0, items, 2, &count) == CRON_C_NOT_AN_ITEM && count == 0);
    CHECK(fires_past(&schedule, "UTC", &outside, 0, items, 2, &count) == CRON_C_NOT_AN_ITEM && count == 0);
    CHECK(fires_past(&schedule, "UTC", &item, INT64_MAX, items, 2, &count) == CRON_C_BAD_INSTANT && count == 0);
    CHECK(fires_past(&schedule, "UTC", &item, 32400, items, 2, &count) == CRON_C_OK && count == 1);
    CHECK(items[0].instant == 32400 && items[0].offset == 0);
    CHECK(cron_c_fire_at(&schedule, named("UTC"), 32400, &item) == CRON_C_OK);
    CHECK(item.instant == 32400 && item.offset == 0);
    CHECK(cron_c_fire_at(&schedule, named("UTC"), 32401, &item) == CRON_C_NO_ITEM);
    CHECK(cron_c_fire_at(&schedule, named("UTC"), 0, &item) == CRON_C_NO_ITEM);
    CHECK(cron_c_fire_at(&schedule, named("UTC"), INT64_MAX, &item) == CRON_C_BAD_INSTANT);
    CHECK(cron_c_fire_at(&schedule, named("Mars"), 32400, &item) == CRON_C_BAD_ZONE);
    CHECK(item.instant == 32400);
}

/* Chicago's clock from autumn 1973 to autumn 1975, when its saving began on other days. */
static const cron_c_era SEVENTIES[] = {
    {INT64_MIN, CRON_C_ZONE_FIXED(-6 * 3600)}, {126691200, CRON_C_ZONE_FIXED(-5 * 3600)},
    {152089200, CRON_C_ZONE_FIXED(-6 * 3600)}, {162374400, CRON_C_ZONE_FIXED(-5 * 3600)},
    {183538800, CRON_C_ZONE_FIXED(-6 * 3600)},
};
enum { ERAS = sizeof SEVENTIES / sizeof *SEVENTIES };

/* The transitions of those years, as the zone database tells them. */
static void histories(void)
{
    cron_c_schedule half_past = parsed("0 30 1 * * *"), in_gap = parsed("0 30 2 * * *");
    cron_c_item item = {7, 7, 0};
    CHECK(cron_c_history_fire_after(&half_past, SEVENTIES, ERAS, 126603000, &item) == CRON_C_OK);
    CHECK(item.instant == 126689400 && item.offset == -6 * 3600);
    CHECK(cron_c_history_fire_after(&half_past, SEVENTIES, ERAS, item.instant, &item) == CRON_C_OK);
    CHECK(item.instant == 126772200 && shows(&item, "1974-01-07 01:30:00 -05:00"));
    CHECK(cron_c_history_fire_after(&in_gap, SEVENTIES, ERAS, 126606600, &item) == CRON_C_OK);
    CHECK(item.instant == 126775800 && shows(&item, "1974-01-07 02:30:00 -05:00"));
    CHECK(cron_c_history_fire_after(&half_past, SEVENTIES, ERAS, 152087399, &item) == CRON_C_OK);
    CHECK(item.instant == 152087400 && shows(&item, "1974-10-27 01:30:00 -05:00"));
    CHECK(cron_c_history_fire_after(&half_past, SEVENTIES, ERAS, item.instant, &item) == CRON_C_OK);
    CHECK(item.instant == 152091000 && shows(&item, "1974-10-27 01:30:00 -06:00"));
    CHECK(cron_c_history_fire_by(&half_past, SEVENTIES, ERAS, 152091000, &item) == CRON_C_OK && item.instant == 152091000);
    CHECK(cron_c_history_fire_by(&half_past, SEVENTIES, ERAS, 152090999, &item) == CRON_C_OK);
    CHECK(item.instant == 152087400 && item.offset == -5 * 3600);
    CHECK(cron_c_history_fire_by(&in_gap, SEVENTIES, ERAS, 126775799, &item) == CRON_C_OK);
    CHECK(item.instant == 126606600 && shows(&item, "1974-01-05 02:30:00 -06:00"));
    CHECK(cron_c_history_fire_at(&in_gap, SEVENTIES, ERAS, 126775800, &item) == CRON_C_OK && item.offset == -5 * 3600);
    CHECK(cron_c_history_fire_at(&in_gap, SEVENTIES, ERAS, 126693000, &item) == CRON_C_NO_ITEM);
    CHECK(cron_c_history_fire_by(&half_past, SEVENTIES, ERAS, 0, &item) == CRON_C_NO_ITEM);
    item.instant = 152091000;
    CHECK(cron_c_history_fire_after(&half_past, SEVENTIES, 0, 0, &item) == CRON_C_NO_ITEM);
    CHECK(cron_c_history_fire_after(&half_past, SEVENTIES, ERAS, INT64_MIN, &item) == CRON_C_BAD_INSTANT);
    CHECK(item.instant == 152091000);
}

/* All the items of 18 months, in pages and at once: how many they are, and the sum of their instants. */
static void runs_of_histories(void)
{
    const int64_t last = 123552000, now = 170812800;
    cron_c_schedule half_past = parsed("0 30 1 * * *");
    cron_c_item all[600], page[7], item;
    size_t count = 9, seen = 0;
    int64_t sum = 0;
    CHECK(cron_c_history_fires_between(&half_past, SEVENTIES, ERAS, last, now, all, 600, &count) == CRON_C_OK);
    CHECK(count == 548 && all[0].instant == 123579000 && all[547].instant == 170749800);
    for (size_t place = 0; place < count; place++) {
        sum += all[place].instant;
    }
    CHECK(sum == INT64_C(80650594800));
    uint32_t status = cron_c_history_fires_between(&half_past, SEVENTIES, ERAS, last, now, page, 7, &count);
    for (; status == CRON_C_MORE && count == 7; seen += 7) {
        CHECK(memcmp(page, all + seen, sizeof page) == 0);
        item = page[6];
        status = cron_c_history_fires_past(&half_past, SEVENTIES, ERAS, &item, now, page, 7, &count);
    }
    CHECK(status == CRON_C_OK && seen + count == 548 && memcmp(page, all + seen, count * sizeof *page) == 0);
}

/* Eras that are no history are told by the check. The other calls tell where they come to such eras. */
static void eras_that_are_no_history(void)
{
    cron_c_schedule daily = parsed("@daily");
    cron_c_era eras[2] = {{0, CRON_C_ZONE_UTC}, {0, CRON_C_ZONE_UTC}};
    cron_c_item item, items[2];
    size_t count = 9;
    CHECK(cron_c_history_check(eras, 0) == CRON_C_OK && cron_c_history_check(eras, 1) == CRON_C_OK);
    CHECK(cron_c_history_check(eras, 2) == CRON_C_BAD_ZONE);
    CHECK(cron_c_history_fire_after(&daily, eras, 2, -5, &item) == CRON_C_BAD_ZONE);
    CHECK(cron_c_history_fire_after(&daily, eras, 2, 0, &item) == CRON_C_OK && item.instant == 86400);
    eras[1].starts = 86401;
    CHECK(cron_c_history_check(eras, 2) == CRON_C_OK);
    CHECK(cron_c_history_fire_after(&daily, eras, 2, -5, &item) == CRON_C_OK && item.instant == 0);
    eras[1].zone.kind = 9;
    CHECK(cron_c_history_check(eras, 2) == CRON_C_BAD_ZONE);
    CHECK(cron_c_history_fire_after(&daily, eras, 2, -5, &item) == CRON_C_OK && item.instant == 0);
    CHECK(cron_c_history_fire_after(&daily, eras, 2, 86399, &item) == CRON_C_OK && item.instant == 86400);
    CHECK(cron_c_history_fire_after(&daily, eras, 2, 86400, &item) == CRON_C_BAD_ZONE && item.instant == 86400);
    CHECK(cron_c_history_fire_by(&daily, eras, 2, 86401, &item) == CRON_C_BAD_ZONE && item.instant == 86400);
    CHECK(cron_c_history_fire_at(&daily, eras, 2, 86401, &item) == CRON_C_BAD_ZONE && item.instant == 86400);
    CHECK(cron_c_history_fires_between(&daily, eras, 2, 0, 86400, items, 2, &count) == CRON_C_OK && count == 1);
    CHECK(cron_c_history_fires_between(&daily, eras, 2, 0, 99999, items, 2, &count) == CRON_C_BAD_ZONE && count == 0);
    count = 9;
    CHECK(cron_c_history_fires_past(&daily, eras, 2, &item, 99999, items, 2, &count) == CRON_C_BAD_ZONE && count == 0);
    CHECK(cron_c_history_check(SEVENTIES, ERAS) == CRON_C_OK);
}

/* What a refused call leaves as it was, and an era in which nothing lies. */
static void arguments_of_histories(void)
{
    cron_c_schedule daily = parsed("@daily");
    cron_c_era eras[2] = {{0, CRON_C_ZONE_UTC}, {INT64_MAX, CRON_C_ZONE_FIXED(3600)}};
    cron_c_item item = {7, 7, 1}, items[2] = {{7, 7, 7}, {7, 7, 7}};
    size_t count = 9;
    CHECK(cron_c_history_fires_past(&daily, eras, 2, &item, 99999, items, 2, &count) == CRON_C_NOT_AN_ITEM && count == 0);
    CHECK(cron_c_history_fires_between(&daily, eras, 2, 0, INT64_MAX, items, 2, &count) == CRON_C_BAD_INSTANT && count == 0);
    CHECK(items[0].instant == 7 && items[1].reserved == 7);
    CHECK(cron_c_history_fires_between(&daily, eras, 2, CRON_C_LEAST_INSTANT, CRON_C_GREATEST_INSTANT, items, 2, &count) == CRON_C_MORE);
    CHECK(count == 2 && items[0].instant == 0 && items[1].instant == 86400);
    item = (cron_c_item){INT64_C(4133980800), 0, 0};
    CHECK(cron_c_history_fires_past(&daily, eras, 2, &item, 0, items, 2, &count) == CRON_C_NOT_AN_ITEM && count == 0);
    item = (cron_c_item){4133894400, 0, 0};
    CHECK(cron_c_history_fires_past(&daily, eras, 2, &item, CRON_C_GREATEST_INSTANT, items, 2, &count) == CRON_C_OK && count == 0);
}

/* A thousand eras of an hour from 1970-01-01T00:00:00Z on. In the odd hours the clock is an hour ahead of UTC, and in the even ones it
 * isn't. So it shows each midnight twice: as hour 23 of UTC's day begins, and an hour later. */
enum { HOURS = 1000 };

static void eras_of_an_hour(void)
{
    static cron_c_era eras[HOURS];
    static cron_c_item items[HOURS];
    cron_c_schedule daily = parsed("@daily"), yearly = parsed("0 0 0 1 1 * 1972");
    cron_c_item item;
    size_t count;
    for (int hour = 0; hour < HOURS; hour++) {
        const cron_c_zone zone = CRON_C_ZONE_FIXED(hour % 2 ? 3600 : 0);
        eras[hour].starts = (int64_t)hour * 3600;
        eras[hour].zone = zone;
    }
    CHECK(cron_c_history_check(eras, HOURS) == CRON_C_OK);
    CHECK(cron_c_history_fires_between(&daily, eras, HOURS, 0, 10 * 86400 - 1, items, HOURS, &count) == CRON_C_OK && count == 19);
    for (size_t place = 0; place < count; place++) {
        const int64_t day = (int64_t)(place / 2 + 1) * 86400;
        CHECK(items[place].instant == (place % 2 ? day : day - 3600) && items[place].offset == (place % 2 ? 0 : 3600));
    }
    for (size_t place = 0; place < count; place++) {
        size_t one;
        CHECK(cron_c_history_fire_after(&daily, eras, HOURS, items[place].instant - 1, &item) == CRON_C_OK);
        CHECK(memcmp(&item, items + place, sizeof item) == 0);
        CHECK(cron_c_history_fire_by(&daily, eras, HOURS, items[place].instant + 3599, &item) == CRON_C_OK);
        CHECK(memcmp(&item, items + place, sizeof item) == 0);
        CHECK(place == 0 || cron_c_history_fires_past(&daily, eras, HOURS, items + place - 1, 10 * 86400, &item, 1, &one) == CRON_C_MORE);
        CHECK(place == 0 || memcmp(&item, items + place, sizeof item) == 0);
    }
    /* The last era, whose hour is odd, has no end: 1972-01-01T00:00:00+01:00. */
    CHECK(cron_c_history_fire_after(&yearly, eras, HOURS, 0, &item) == CRON_C_OK && item.instant == 63072000 - 3600);
    CHECK(cron_c_history_fire_by(&yearly, eras, HOURS, 63068399, &item) == CRON_C_NO_ITEM);
    CHECK(cron_c_history_fires_between(&yearly, eras, HOURS, 0, CRON_C_GREATEST_INSTANT, items, HOURS, &count) == CRON_C_OK && count == 1);
    CHECK(items[0].instant == 63068400);
}

int main(void)
{
    fires();
    ends_of_fires();
    runs();
    shared_instants();
    arguments_of_runs();
    histories();
    runs_of_histories();
    eras_that_are_no_history();
    arguments_of_histories();
    eras_of_an_hour();
    tell_held("fires");
    return 0;
}
