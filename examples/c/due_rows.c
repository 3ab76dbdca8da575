/* Rows that the calls by due fires must answer, also over a zone with a history. */
#include "turns.h"

#define ROOM 20

/* Whether the text of the due fire is this. */
static int due_shows(const cron_c_item *item, const char *text)
{
    char shown[CRON_C_DUE_TEXT];
    size_t length = 0;
    return cron_c_due_format(item, shown, sizeof shown, &length) == CRON_C_OK && length == strlen(text) &&
           memcmp(shown, text, length) == 0;
}

static int is_due(const cron_c_item *item, const struct due *due)
{
    return item->instant == due->instant && item->offset == due->offset && item->reserved == due->past;
}

/* A run over a transition, cut after each fire and gone on with, and the calls that answer one. */
static void about_a_turn(const struct turn *turn)
{
    const cron_c_schedule half_hours = parsed("0 0,30 * * * *");
    const cron_c_zone zone = *named(turn->zone);
    cron_c_item items[ROOM], rest[ROOM], item;
    size_t count, left;
    CHECK(cron_c_dues_between(&half_hours, &zone, turn->last, turn->now, items, ROOM, &count) == CRON_C_OK);
    CHECK(count == turn->count);
    CHECK(cron_c_due_after(&half_hours, &zone, turn->last, &item) == CRON_C_OK);
    for (size_t place = 0; place < count; place++) {
        const struct due *due = turn->dues + place;
        CHECK(is_due(items + place, due) && is_due(&item, due));
        CHECK(cron_c_dues_past(&half_hours, &zone, &item, turn->now, rest, ROOM, &left) == CRON_C_OK);
        CHECK(left == count - place - 1 && memcmp(rest, items + place + 1, left * sizeof item) == 0);
        if (place + 1 == count || turn->dues[place + 1].instant > due->instant) {
            CHECK(cron_c_due_by(&half_hours, &zone, due->instant, rest) == CRON_C_OK && is_due(rest, due));
        }
        CHECK(cron_c_due_past(&half_hours, &zone, &item) == CRON_C_OK);
    }
    CHECK(item.instant > turn->now);
}

/* A page that ends between two fires of one instant. */
static void pages(void)
{
    const cron_c_schedule quarters = parsed("0 */15 2 * * *");
    const cron_c_zone zone = *named(CHICAGO);
    cron_c_item items[ROOM], last;
    size_t count;
    CHECK(cron_c_dues_between(&quarters, &zone, 1647100800, 1647187200, items, 2, &count) == CRON_C_MORE && count == 2);
    CHECK(due_shows(items, "2022-03-13 03:00:00 -05:00 for 02:00:00"));
    CHECK(due_shows(items + 1, "2022-03-13 03:00:00 -05:00 for 02:15:00"));
    last = items[1];
    CHECK(cron_c_dues_past(&quarters, &zone, &last, 1647187200, items, 2, &count) == CRON_C_OK && count == 2);
    CHECK(due_shows(items, "2022-03-13 03:00:00 -05:00 for 02:30:00"));
    CHECK(due_shows(items + 1, "2022-03-13 03:00:00 -05:00 for 02:45:00"));
    CHECK(items[1].instant == 1647158400 && items[1].reserved == 900);
    /* Asked anew from the instant, the other fires of it are lost. */
    CHECK(cron_c_due_after(&quarters, &zone, 1647158400, &last) == CRON_C_OK && last.instant == 1647241200);
}

/* Days that a clock skips: Kwajalein's 1993-08-21 and Apia's 2011-12-30. */
static void histories(void)
{
    const cron_c_schedule nightly = parsed("0 30 2 * * *");
    const cron_c_era kwajalein[] = {{INT64_MIN, CRON_C_ZONE_FIXED(-43200)}, {745934400, CRON_C_ZONE_FIXED(43200)}};
    const cron_c_era apia[] = {{INT64_MIN, CRON_C_ZONE_FIXED(-36000)}, {1325239200, CRON_C_ZONE_FIXED(50400)}};
    const struct due passed[] = {{745857000, -43200, 0}, {745934400, 43200, 77400}, {745943400, 43200, 0}};
    cron_c_item items[ROOM], item, first;
    size_t count;
    CHECK(cron_c_history_dues_between(&nightly, kwajalein, 2, 745804800, 745977600, items, ROOM, &count) == CRON_C_OK && count == 3);
    for (size_t place = 0; place < count; place++) {
        CHECK(is_due(items + place, passed + place));
    }
    CHECK(due_shows(items + 1, "1993-08-22 00:00:00 +12:00 for 1993-08-21 02:30:00"));
    CHECK(cron_c_history_due_after(&nightly, apia, 2, 1325161800, &item) == CRON_C_OK);
    CHECK(item.instant == 1325239200 && due_shows(&item, "2011-12-31 00:00:00 +14:00 for 2011-12-30 02:30:00"));
    CHECK(cron_c_history_due_by(&nightly, apia, 2, 1325239200, &first) == CRON_C_OK && memcmp(&first, &item, sizeof item) == 0);
    CHECK(cron_c_history_due_by(&nightly, apia, 2, 1325239199, &first) == CRON_C_OK && first.instant == 1325161800);
    CHECK(cron_c_history_due_past(&nightly, apia, 2, &item) == CRON_C_OK);
    CHECK(item.instant == 1325248200 && item.offset == 50400 && item.reserved == 0);
    CHECK(cron_c_history_dues_past(&nightly, apia, 2, &first, 1325332800, items, 1, &count) == CRON_C_MORE && count == 1);
    CHECK(items[0].instant == 1325239200 && items[0].reserved == 77400);
    /* Before the first era its zone's clock holds. */
    CHECK(cron_c_history_due_by(&nightly, apia + 1, 1, 0, &item) == CRON_C_OK && item.instant == 9000 - 50400);
    CHECK(cron_c_history_due_after(&nightly, apia + 1, 1, 0, &item) == CRON_C_OK && item.instant == 86400 + 9000 - 50400);
}

/* What is no zone, no history, no instant or no due fire. */
static void arguments(void)
{
    const cron_c_schedule nightly = parsed("0 30 2 * * *");
    const cron_c_era twice[] = {{0, CRON_C_ZONE_UTC}, {0, CRON_C_ZONE_UTC}};
    const cron_c_zone utc = CRON_C_ZONE_UTC;
    cron_c_item item = {9000, 0, 0}, early = {0, 0, 1}, far = {86400 * 400, 0, 187199}, gap = {1647158400, -18000, 1800};
    cron_c_item items[ROOM];
    char text[CRON_C_DUE_TEXT];
    size_t count = 7;
    CHECK(cron_c_due_after(&nightly, named("Mars"), 0, &item) == CRON_C_BAD_ZONE && item.instant == 9000);
    CHECK(cron_c_due_by(&nightly, &utc, CRON_C_GREATEST_INSTANT + 1, &item) == CRON_C_BAD_INSTANT && item.instant == 9000);
    CHECK(cron_c_due_past(&nightly, &utc, &early) == CRON_C_NOT_AN_ITEM && early.reserved == 1);
    CHECK(cron_c_due_past(&nightly, &utc, &far) == CRON_C_NOT_AN_ITEM);
    CHECK(cron_c_dues_past(&nightly, &utc, &far, 0, items, ROOM, &count) == CRON_C_NOT_AN_ITEM && count == 0);
    CHECK(cron_c_due_format(&far, text, sizeof text, &count) == CRON_C_NOT_AN_ITEM && count == 0);
    far.reserved = 187198;
    CHECK(cron_c_due_past(&nightly, &utc, &far) == CRON_C_OK && far.reserved == 0);
    CHECK(cron_c_history_due_after(&nightly, twice, 2, 0, &item) == CRON_C_BAD_ZONE && item.instant == 9000);
    CHECK(cron_c_history_due_after(&nightly, twice, 0, 0, &item) == CRON_C_BAD_ZONE && item.instant == 9000);
    /* The calls by instants and the walk go on refusing a due fire that its clock passes over. */
    CHECK(cron_c_format(&gap, text, sizeof text, &count) == CRON_C_NOT_AN_ITEM);
    CHECK(cron_c_next(&nightly, named(CHICAGO), &gap) == CRON_C_NOT_AN_ITEM);
    CHECK(cron_c_fires_past(&nightly, named(CHICAGO), &gap, 1647241200, items, ROOM, &count) == CRON_C_NOT_AN_ITEM);
    CHECK(due_shows(&gap, "2022-03-13 03:00:00 -05:00 for 02:30:00"));
    /* And an item of those calls is taken here: its clock shows it. */
    CHECK(cron_c_due_past(&nightly, &utc, &item) == CRON_C_OK && item.instant == 86400 + 9000 && item.reserved == 0);
}

/* The last match is due when its clock shows 2101 already. */
static void last_hour(void)
{
    const cron_c_schedule last = parsed("0 30 23 31 12 ? 2100");
    cron_c_item item;
    CHECK(cron_c_due_after(&last, named("AAA0BBB,J365/23:30,J100/2"), 0, &item) == CRON_C_OK);
    CHECK(item.instant == INT64_C(4133979000) && item.reserved == 3600);
    CHECK(due_shows(&item, "2101-01-01 00:30:00 +01:00 for 2100-12-31 23:30:00"));
    CHECK(cron_c_due_past(&last, named("AAA0BBB,J365/23:30,J100/2"), &item) == CRON_C_NO_ITEM);
}

int main(void)
{
    for (size_t place = 0; place < sizeof TURNS / sizeof *TURNS; place++) {
        about_a_turn(TURNS + place);
    }
    pages();
    histories();
    arguments();
    last_hour();
    tell_held("due fires");
    return 0;
}
