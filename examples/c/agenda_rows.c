/* Rows that the calls over an agenda must answer: many entries, which come and go, and their fires in one order. */
#include "turns.h"

enum { TURN_COUNT = sizeof TURNS / sizeof *TURNS, ENTRIES = 2 * TURN_COUNT, HALF_HOUR = 1800 };

static const cron_c_era UTC = CRON_C_ERA_ALWAYS(CRON_C_ZONE_UTC);

/* One schedule for all entries, each half hour, and an era for each turn. */
static cron_c_schedule halves[2];
static cron_c_era eras[TURN_COUNT];

/* The entry at a place: the half hours about a turn, each match once at even places, as shown at odd ones. */
static cron_c_entry entry_at(size_t place)
{
    const struct turn *turn = TURNS + place / 2;
    cron_c_entry entry = {0, 2, place / 2, 1, {0, 0, 0}, place % 2 ? CRON_C_AS_SHOWN : CRON_C_ONCE, 0, 5, 5};
    CHECK((place % 2 ? cron_c_union_fire_after : cron_c_union_due_after)(halves, 2, eras + place / 2, 1, turn->last, &entry.next) == CRON_C_OK);
    return entry;
}

/* The fire of an entry with this number, by the rows of its turn: as shown each half hour fires, since all offsets are half hours. */
static int64_t instant_of(size_t place, size_t number)
{
    const struct turn *turn = TURNS + place / 2;
    if (place % 2) {
        return (turn->last / HALF_HOUR + (int64_t)number + 1) * HALF_HOUR;
    }
    return number < turn->count ? turn->dues[number].instant : turn->now + 1;
}

/* How many fires of each entry were taken, and which entries are there. */
static size_t taken[ENTRIES];
static int is_there[ENTRIES];

/* The place of what comes first, by a scan through all entries; ENTRIES where none is there. */
static size_t first_place(void)
{
    size_t first = ENTRIES;
    for (size_t place = 0; place < ENTRIES; place++) {
        if (is_there[place] && (first == ENTRIES || instant_of(place, taken[place]) < instant_of(first, taken[first]))) {
            first = place;
        }
    }
    return first;
}

static cron_c_entry entries[ENTRIES];

static void put(size_t place, const cron_c_entry *entry)
{
    CHECK(cron_c_agenda_put(entries, ENTRIES, place, entry) == CRON_C_OK);
    is_there[place] = entry->rule != CRON_C_NO_ENTRY;
}

/* Takes what comes first, which a scan tells, and no second sooner; an entry is removed where its rows end. */
static void take_first(void)
{
    static const cron_c_entry none;
    const size_t first = first_place();
    const int64_t instant = instant_of(first, taken[first]);
    const struct turn *turn = TURNS + first / 2;
    size_t place = 99;
    cron_c_item item = {1, 1, 1}, due;
    CHECK(cron_c_agenda_instant(entries) == instant);
    CHECK(cron_c_agenda_next(halves, 2, eras, TURN_COUNT, entries, ENTRIES, instant - 1, &place, &item) == CRON_C_NO_ITEM);
    CHECK(place == 99 && item.instant == 1 && item.offset == 1 && item.reserved == 1);
    CHECK(cron_c_agenda_next(halves, 2, eras, TURN_COUNT, entries, ENTRIES, instant, &place, &item) == CRON_C_OK);
    CHECK(place == first && item.instant == instant);
    if (first % 2 == 0) {
        CHECK(item.offset == turn->dues[taken[first]].offset && item.reserved == turn->dues[taken[first]].past);
    } else {
        CHECK(item.reserved == 0 && (item.instant + item.offset) % HALF_HOUR == 0);
    }
    taken[first]++;
    due = entries[first].next;
    if (instant_of(first, taken[first]) > turn->now) {
        CHECK(due.instant > turn->now);
        put(first, &none);
    }
}

/* The half hours about all turns. Entries are added one after another, as what is taken comes to their turns. */
static void about_all_turns(void)
{
    halves[0] = parsed("0 0 * * * *");
    halves[1] = parsed("0 30 * * * *");
    memset(entries, 0, sizeof entries);
    CHECK(cron_c_agenda_begin(entries, ENTRIES) == CRON_C_OK && cron_c_agenda_instant(entries) == INT64_MAX);
    for (size_t at = 0; at < TURN_COUNT; at++) {
        eras[at] = (cron_c_era)CRON_C_ERA_ALWAYS(*named(TURNS[at].zone));
        CHECK(eras[at].zone.offset % HALF_HOUR == 0 && eras[at].zone.saving % HALF_HOUR == 0);
    }
    for (size_t at = 0; at < ENTRIES; at++) {
        const size_t place = at * 5 % ENTRIES; /* in no order of places */
        const cron_c_entry entry = entry_at(place);
        put(place, &entry);
        for (int some = 0; some < 3 && first_place() < ENTRIES; some++) {
            take_first();
        }
    }
    while (first_place() < ENTRIES) {
        take_first();
    }
    CHECK(cron_c_agenda_instant(entries) == INT64_MAX);
}

/* Entries at one instant come by place, also two items of one that share it, and those that end are none. */
static void shared_instants(void)
{
    /* 00:30Z of 2001-04-10 is 23:30 -01:00 and 00:30 +00:00 in the zone, whose rule contradicts itself. */
    const cron_c_schedule schedules[] = {parsed("0 30 0,23 10,9 4 * 2001"), parsed("0 30 0 10 4 * 2001")};
    const cron_c_era zones[] = {CRON_C_ERA_ALWAYS(*named("AAA0BBB1,J100/1:30,J100/0")), UTC};
    const int64_t instant = 986862600;
    cron_c_entry jobs[] = {{1, 1, 1, 1, {instant, 0, 0}, CRON_C_AS_SHOWN, 0, 0, 0},
                           {0, 1, 0, 1, {instant, -3600, 0}, CRON_C_AS_SHOWN, 0, 0, 0},
                           {1, 1, 1, 1, {instant, 0, 0}, CRON_C_ONCE, 0, 0, 0}};
    static const struct {
        size_t place;
        int32_t offset;
    } wanted[] = {{0, 0}, {1, -3600}, {1, 0}, {2, 0}};
    size_t place;
    cron_c_item item;
    CHECK(cron_c_agenda_begin(jobs, 3) == CRON_C_OK);
    for (size_t at = 0; at < sizeof wanted / sizeof *wanted; at++) {
        CHECK(cron_c_agenda_next(schedules, 2, zones, 2, jobs, 3, instant, &place, &item) == CRON_C_OK);
        CHECK(place == wanted[at].place && item.instant == instant && item.offset == wanted[at].offset);
    }
    CHECK(jobs[0].rule == CRON_C_NO_ENTRY && jobs[2].rule == CRON_C_NO_ENTRY);
    CHECK(cron_c_agenda_next(schedules, 2, zones, 2, jobs, 3, instant, &place, &item) == CRON_C_NO_ITEM);
}

/* An entry that can't go on stays, and its place is told; what is put in its stead lets the others go on. */
static void stuck(cron_c_entry bad, uint32_t status)
{
    static const cron_c_entry none;
    const cron_c_schedule daily = parsed("@daily");
    const cron_c_era twice[] = {UTC, {INT64_MIN, CRON_C_ZONE_UTC}};
    cron_c_entry jobs[] = {none, {0, 1, 0, 1, {86400, 0, 0}, CRON_C_ONCE, 0, 0, 0}, bad, none}, before[4];
    size_t place = 9;
    cron_c_item item = {1, 1, 1};
    CHECK(cron_c_agenda_begin(jobs, 4) == CRON_C_OK);
    memcpy(before, jobs, sizeof jobs);
    CHECK(cron_c_agenda_next(&daily, 1, twice, 2, jobs, 4, 86400, &place, &item) == status && place == 2);
    CHECK(item.instant == 1 && item.offset == 1 && item.reserved == 1 && memcmp(before, jobs, sizeof jobs) == 0);
    CHECK(cron_c_agenda_put(jobs, 4, place, &none) == CRON_C_OK);
    CHECK(cron_c_agenda_next(&daily, 1, twice, 2, jobs, 4, 86400, &place, &item) == CRON_C_OK && place == 1);
    CHECK(item.instant == 86400 && jobs[1].next.instant == 172800 && cron_c_agenda_instant(jobs) == 172800);
}

static void refused_entries(void)
{
    const cron_c_item now = {0, 0, 0};
    stuck((cron_c_entry){0, 2, 0, 1, now, CRON_C_ONCE, 0, 0, 0}, CRON_C_NOT_AN_ITEM);
    stuck((cron_c_entry){2, 0, 0, 1, now, CRON_C_ONCE, 0, 0, 0}, CRON_C_NOT_AN_ITEM);
    stuck((cron_c_entry){1, SIZE_MAX, 0, 1, now, CRON_C_AS_SHOWN, 0, 0, 0}, CRON_C_NOT_AN_ITEM);
    stuck((cron_c_entry){0, 1, 3, 0, now, CRON_C_AS_SHOWN, 0, 0, 0}, CRON_C_NOT_AN_ITEM);
    stuck((cron_c_entry){0, 1, SIZE_MAX, 2, now, CRON_C_ONCE, 0, 0, 0}, CRON_C_NOT_AN_ITEM);
    stuck((cron_c_entry){0, 1, 0, 1, now, 3, 0, 0, 0}, CRON_C_NOT_AN_ITEM);
    stuck((cron_c_entry){0, 1, 0, 1, {0, 0, 1}, CRON_C_AS_SHOWN, 0, 0, 0}, CRON_C_NOT_AN_ITEM);
    stuck((cron_c_entry){0, 1, 0, 1, {0, 93600, 0}, CRON_C_ONCE, 0, 0, 0}, CRON_C_NOT_AN_ITEM);
    stuck((cron_c_entry){0, 1, 0, 2, now, CRON_C_ONCE, 0, 0, 0}, CRON_C_BAD_ZONE);
    stuck((cron_c_entry){0, 1, 0, 0, now, CRON_C_ONCE, 0, 0, 0}, CRON_C_BAD_ZONE);
}

/* No places, a place that isn't there, and an array that is no agenda. */
static void arguments(void)
{
    const cron_c_schedule daily = parsed("@daily");
    cron_c_entry job = {0, 1, 0, 1, {86400, 0, 0}, CRON_C_ONCE, 0, 86400, 7}, given = job;
    size_t place = 9;
    cron_c_item item = {1, 1, 1};
    CHECK(cron_c_agenda_begin(&job, 0) == CRON_C_OK && memcmp(&job, &given, sizeof job) == 0);
    CHECK(cron_c_agenda_put(&job, 0, 0, &given) == CRON_C_NOT_AN_ITEM && cron_c_agenda_put(&job, 1, 1, &given) == CRON_C_NOT_AN_ITEM);
    CHECK(cron_c_agenda_next(&daily, 1, &UTC, 1, &job, 0, INT64_MAX, &place, &item) == CRON_C_NO_ITEM && place == 9);
    CHECK(cron_c_agenda_next(&daily, 1, &UTC, 1, &job, 1, INT64_MAX, &place, &item) == CRON_C_NOT_AN_ITEM && place == 7);
    CHECK(memcmp(&job, &given, sizeof job) == 0 && item.instant == 1);
    job.rule = CRON_C_NO_ENTRY;
    CHECK(cron_c_agenda_begin(&job, 1) == CRON_C_OK);
    CHECK(cron_c_agenda_next(&daily, 1, &UTC, 1, &job, 1, INT64_MAX, &place, &item) == CRON_C_NO_ITEM);
}

int main(void)
{
    about_all_turns();
    shared_instants();
    refused_entries();
    arguments();
    tell_held("agendas");
    return 0;
}
