/* Rows that the calls over several schedules must answer, over a zone and over a history. */
#include "turns.h"

#define ROOM 24

static const cron_c_schedule *parts(const char *const *texts, size_t length)
{
    static cron_c_schedule schedules[8];
    CHECK(length <= sizeof schedules / sizeof *schedules);
    for (size_t at = 0; at < length; at++) {
        schedules[at] = parsed(texts[at]);
    }
    return schedules;
}

/* Half hours by several schedules, some of which match the same. */
static const char *const HALVES[] = {"0 30 * * * *", "0 0 0-11 * * *", "0 0,30 6-23 * * *", "0 0 12 * * *", "0 30 1-3 * * *"};
enum { HALF_PARTS = sizeof HALVES / sizeof *HALVES };

static int same(const cron_c_item *item, const struct due *due)
{
    return item->instant == due->instant && item->offset == due->offset && item->reserved == due->past;
}

/* The due fires of a turn, in pages of each length, and each by the calls that answer one. */
static void dues_about_a_turn(const struct turn *turn)
{
    const cron_c_schedule *halves = parts(HALVES, HALF_PARTS);
    const cron_c_era era = CRON_C_ERA_ALWAYS(*named(turn->zone));
    cron_c_item items[ROOM], item;
    size_t count;
    CHECK(cron_c_union_dues_between(halves, HALF_PARTS, &era, 1, turn->last, turn->now, items, ROOM, &count) == CRON_C_OK);
    CHECK(count == turn->count);
    CHECK(cron_c_union_due_after(halves, HALF_PARTS, &era, 1, turn->last, &item) == CRON_C_OK);
    for (size_t place = 0; place < turn->count; place++) {
        const struct due *due = turn->dues + place;
        const size_t left = turn->count - place - 1;
        CHECK(same(items + place, due) && same(&item, due));
        for (size_t room = 0; room <= left; room++) {
            cron_c_item page[ROOM];
            CHECK(cron_c_union_dues_past(halves, HALF_PARTS, &era, 1, &item, turn->now, page, room, &count) ==
                  (room < left ? CRON_C_MORE : CRON_C_OK));
            CHECK(count == room && memcmp(page, items + place + 1, room * sizeof *page) == 0);
        }
        if (left == 0 || due[1].instant > due->instant) {
            CHECK(cron_c_union_due_by(halves, HALF_PARTS, &era, 1, due->instant, &item) == CRON_C_OK && same(&item, due));
        }
        CHECK(cron_c_union_due_past(halves, HALF_PARTS, &era, 1, &item) == CRON_C_OK);
    }
    CHECK(item.instant > turn->now);
}

/* Chicago's clock about 1974-10-27, when it went from 02:00 back to 01:00: both readings of each half hour. */
static const cron_c_era SEVENTIES[] = {
    {INT64_MIN, CRON_C_ZONE_FIXED(-6 * 3600)}, {126691200, CRON_C_ZONE_FIXED(-5 * 3600)},
    {152089200, CRON_C_ZONE_FIXED(-6 * 3600)},
};
enum { ERAS = sizeof SEVENTIES / sizeof *SEVENTIES, FOLD = 8 };
static const int64_t FOLD_STARTS = 152082000;

static void fires_about_a_fold(void)
{
    const cron_c_schedule *halves = parts(HALVES, HALF_PARTS);
    cron_c_item items[ROOM], item;
    size_t count;
    const int64_t now = FOLD_STARTS + FOLD * 1800;
    CHECK(cron_c_union_fires_between(halves, HALF_PARTS, SEVENTIES, ERAS, FOLD_STARTS, now, items, ROOM, &count) == CRON_C_OK);
    CHECK(count == FOLD);
    for (size_t place = 0; place < FOLD; place++) {
        const int64_t instant = FOLD_STARTS + (int64_t)(place + 1) * 1800;
        const size_t left = FOLD - place - 1;
        CHECK(items[place].instant == instant && items[place].offset == (instant < 152089200 ? -5 : -6) * 3600 && items[place].reserved == 0);
        CHECK(cron_c_union_fire_after(halves, HALF_PARTS, SEVENTIES, ERAS, instant - 1, &item) == CRON_C_OK);
        CHECK(memcmp(&item, items + place, sizeof item) == 0);
        CHECK(cron_c_union_fire_after(halves, HALF_PARTS, SEVENTIES, ERAS, instant - 1800, &item) == CRON_C_OK);
        CHECK(memcmp(&item, items + place, sizeof item) == 0);
        CHECK(cron_c_union_fire_by(halves, HALF_PARTS, SEVENTIES, ERAS, instant, &item) == CRON_C_OK);
        CHECK(memcmp(&item, items + place, sizeof item) == 0);
        CHECK(cron_c_union_fire_by(halves, HALF_PARTS, SEVENTIES, ERAS, instant + 1799, &item) == CRON_C_OK);
        CHECK(memcmp(&item, items + place, sizeof item) == 0);
        for (size_t room = 0; room <= left; room++) {
            cron_c_item page[ROOM];
            CHECK(cron_c_union_fires_past(halves, HALF_PARTS, SEVENTIES, ERAS, items + place, now, page, room, &count) ==
                  (room < left ? CRON_C_MORE : CRON_C_OK));
            CHECK(count == room && memcmp(page, items + place + 1, room * sizeof *page) == 0);
        }
    }
}

/* The gap of 1974-01-06, from 02:00 to 03:00: no item shows 02:00 or 02:30, and both are due at the transition. */
static void about_a_gap(void)
{
    const cron_c_schedule *halves = parts(HALVES, HALF_PARTS);
    const int64_t last = 126687600, now = 126693000;
    const struct due due[] = {{126689400, -21600, 0}, {126691200, -18000, 3600}, {126691200, -18000, 1800},
                              {126691200, -18000, 0}, {126693000, -18000, 0}};
    cron_c_item items[ROOM], item;
    size_t count;
    CHECK(cron_c_union_fires_between(halves, HALF_PARTS, SEVENTIES, ERAS, last, now, items, ROOM, &count) == CRON_C_OK && count == 3);
    CHECK(shows(items, "1974-01-06 01:30:00 -06:00") && shows(items + 1, "1974-01-06 03:00:00 -05:00"));
    CHECK(shows(items + 2, "1974-01-06 03:30:00 -05:00"));
    CHECK(cron_c_union_dues_between(halves, HALF_PARTS, SEVENTIES, ERAS, last, now, items, ROOM, &count) == CRON_C_OK && count == 5);
    for (size_t place = 0; place < count; place++) {
        CHECK(same(items + place, due + place));
    }
    CHECK(cron_c_union_due_after(halves, HALF_PARTS, SEVENTIES, ERAS, 126691199, &item) == CRON_C_OK && same(&item, due + 1));
    CHECK(cron_c_union_due_by(halves, HALF_PARTS, SEVENTIES, ERAS, 126691200, &item) == CRON_C_OK && same(&item, due + 3));
    item = items[1];
    CHECK(cron_c_union_due_past(halves, HALF_PARTS, SEVENTIES, ERAS, &item) == CRON_C_OK && same(&item, due + 2));
}

/* Two items that share an instant, each of another schedule: 00:30Z of 2001-04-10 is 23:30 -01:00 and 00:30 +00:00. */
static void shared_instants(void)
{
    static const char *const texts[] = {"0 30 0 * * *", "0 30 23 * * *"};
    const cron_c_schedule *both = parts(texts, 2);
    const cron_c_era era = CRON_C_ERA_ALWAYS(*named("AAA0BBB1,J100/1:30,J100/0"));
    const int64_t instant = 986862600;
    cron_c_item items[2], item;
    size_t count;
    CHECK(cron_c_union_fires_between(both, 2, &era, 1, instant - 1, instant, items, 2, &count) == CRON_C_OK && count == 2);
    CHECK(items[0].instant == instant && items[0].offset == -3600 && items[1].instant == instant && items[1].offset == 0);
    CHECK(cron_c_union_fire_after(both, 2, &era, 1, instant - 1, &item) == CRON_C_OK && item.offset == -3600);
    CHECK(cron_c_union_fire_by(both, 2, &era, 1, instant, &item) == CRON_C_OK && item.offset == 0);
    item = items[0];
    CHECK(cron_c_union_fires_past(both, 2, &era, 1, &item, instant, items, 2, &count) == CRON_C_OK && count == 1 && items[0].offset == 0);
}

/* A crontab's entry in which one of two kinds of day suffices: the 13th, and each Friday. In 2026 February, March and
 * November have a Friday the 13th. */
static void crontab_days(void)
{
    static const int64_t february[] = {1770336000, 1770940800, 1771545600, 1772150400};
    cron_c_schedule schedules[2];
    const cron_c_era utc = CRON_C_ERA_ALWAYS(CRON_C_ZONE_UTC);
    cron_c_item items[ROOM];
    size_t length, needed, count;
    CHECK(cron_c_crontab_parse(CRON_C_TEXT("0 0 13 * 5"), schedules, 2, &length, CRON_C_NO_TEXT, &needed) == CRON_C_OK && length == 2);
    CHECK(cron_c_union_fires_between(schedules, length, &utc, 1, 1769904000 - 1, 1772323200 - 1, items, ROOM, &count) == CRON_C_OK);
    CHECK(count == 4);
    for (size_t place = 0; place < count; place++) {
        CHECK(items[place].instant == february[place]);
    }
    /* All of 2026: 52 Fridays, and nine days the 13th that are none. */
    CHECK(cron_c_union_fires_between(schedules, length, &utc, 1, 1767225600 - 1, 1798761600 - 1, items, 0, &count) == CRON_C_MORE);
    size_t all = 0;
    for (cron_c_item item = {1767225599, 0, 0}; cron_c_union_fire_after(schedules, length, &utc, 1, item.instant, &item) == CRON_C_OK &&
                                                item.instant < 1798761600;) {
        all++;
    }
    CHECK(all == 61);
}

/* No schedule fires at no time, and what is refused. */
static void arguments(void)
{
    cron_c_schedule daily = parsed("@daily");
    const cron_c_era utc = CRON_C_ERA_ALWAYS(CRON_C_ZONE_UTC), twice[] = {{0, CRON_C_ZONE_UTC}, {0, CRON_C_ZONE_UTC}};
    cron_c_item item = {7, 7, 0}, due = {7, 0, 187199}, items[2] = {{7, 7, 7}, {7, 7, 7}};
    size_t count = 9;
    CHECK(cron_c_union_fire_after(&daily, 0, &utc, 1, 0, &item) == CRON_C_NO_ITEM && cron_c_union_fire_by(&daily, 0, &utc, 1, 0, &item) == CRON_C_NO_ITEM);
    CHECK(cron_c_union_due_after(&daily, 0, &utc, 1, 0, &item) == CRON_C_NO_ITEM && cron_c_union_due_by(&daily, 0, &utc, 1, 0, &item) == CRON_C_NO_ITEM);
    CHECK(cron_c_union_due_past(&daily, 0, &utc, 1, &item) == CRON_C_NO_ITEM && item.instant == 7 && item.offset == 7);
    CHECK(cron_c_union_fires_between(&daily, 0, &utc, 1, 0, CRON_C_GREATEST_INSTANT, items, 2, &count) == CRON_C_OK && count == 0);
    CHECK(cron_c_union_dues_between(&daily, 0, &utc, 1, 0, CRON_C_GREATEST_INSTANT, items, 0, &count) == CRON_C_OK && count == 0);
    CHECK(cron_c_union_fire_after(&daily, 1, twice, 2, -5, &item) == CRON_C_BAD_ZONE && cron_c_union_due_after(&daily, 1, twice, 2, 0, &item) == CRON_C_BAD_ZONE);
    CHECK(cron_c_union_due_by(&daily, 1, &utc, 0, 0, &item) == CRON_C_BAD_ZONE && cron_c_union_due_past(&daily, 1, &utc, 0, &item) == CRON_C_BAD_ZONE);
    CHECK(cron_c_union_fires_between(&daily, 1, twice, 2, -5, 9, items, 2, &count) == CRON_C_BAD_ZONE && count == 0);
    CHECK(cron_c_union_fire_by(&daily, 1, &utc, 1, INT64_MAX, &item) == CRON_C_BAD_INSTANT && cron_c_union_due_by(&daily, 1, &utc, 1, INT64_MAX, &item) == CRON_C_BAD_INSTANT);
    CHECK(cron_c_union_dues_between(&daily, 1, &utc, 1, 0, INT64_MAX, items, 2, &count) == CRON_C_BAD_INSTANT && count == 0);
    CHECK(cron_c_union_dues_past(&daily, 1, &utc, 1, &due, 9, items, 2, &count) == CRON_C_NOT_AN_ITEM && count == 0);
    CHECK(cron_c_union_fires_past(&daily, 1, &utc, 1, &due, 9, items, 2, &count) == CRON_C_NOT_AN_ITEM && count == 0);
    CHECK(item.instant == 7 && item.offset == 7 && items[0].instant == 7 && items[1].reserved == 7);
}

int main(void)
{
    for (size_t place = 0; place < sizeof TURNS / sizeof *TURNS; place++) {
        dues_about_a_turn(TURNS + place);
    }
    fires_about_a_fold();
    about_a_gap();
    shared_instants();
    crontab_days();
    arguments();
    tell_held("several schedules");
    return 0;
}
