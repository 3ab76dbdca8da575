/*
 * Random schedules, zones, instants and texts, and laws that the answers keep. The argument is how many
 * cases are tried (2,000), a second one where the random numbers begin. It stops at the first law that is
 * broken. Buffers for texts, bytes, items and eras end at a page that can't be touched, so that a call
 * which reads or writes past their end ends the program.
 */
#include "edge.h"
#include "cron_c.h"
#include "pyongyang.h"

#include <stdio.h>
#include <stdlib.h>
#include <string.h>

static uint64_t state = 1;
static unsigned long at_case;

static uint64_t chance(uint64_t below)
{
    state ^= state << 13;
    state ^= state >> 7;
    state ^= state << 17;
    return (state * UINT64_C(2685821657736338717) >> 16) % below;
}

static void law(int holds, const char *what, int line)
{
    if (!holds) {
        printf("fuzz: case %lu, line %d: %s\n", at_case, line, what);
        exit(1);
    }
}

#define LAW(what) law((what), #what, __LINE__)

/* Some bits of a unit: one, some or all. */
static uint64_t bits(unsigned count)
{
    uint64_t all = count == 64 ? UINT64_MAX : (UINT64_C(1) << count) - 1;
    switch (chance(3)) {
    case 0: return all;
    case 1: return UINT64_C(1) << chance(count);
    default: return ((chance(UINT64_MAX) | (UINT64_C(1) << chance(count))) & all);
    }
}

static cron_c_schedule some_schedule(void)
{
    cron_c_schedule schedule;
    memset(&schedule, 0, sizeof schedule);
    schedule.seconds = bits(60);
    schedule.minutes = bits(60);
    schedule.hours = bits(24);
    schedule.days_of_month = bits(31);
    schedule.last_day = chance(4) == 0;
    schedule.months = bits(12);
    schedule.days_of_week = chance(2) ? 127 : bits(7);
    schedule.years_from_1970 = bits(64);
    schedule.years_from_2034 = bits(64);
    schedule.years_from_2098 = bits(3);
    return schedule;
}

static cron_c_zone some_zone(void)
{
    static const char *const texts[] = {
        "UTC", "CST6CDT,M3.2.0,M11.1.0", "IST-1GMT0,M10.5.0,M3.5.0/1", "<+1030>-10:30<+11>-11,M10.1.0,M4.1.0",
        "AAA0BBB1,J100/1:30,J100/0", "AAA0BBB-1,J100/0,J100/1", "EST5EDT,0/0,J365/25", "<-02>2<-01>,M3.5.0/-1,M10.5.0/0",
    };
    cron_c_zone zone = CRON_C_ZONE_UTC;
    const char *text = texts[chance(sizeof texts / sizeof *texts)];
    if (chance(4)) {
        LAW(cron_c_zone_parse(text, strlen(text), &zone) == CRON_C_OK);
        return zone;
    }
    zone.kind = (uint32_t)chance(4);
    zone.offset = (int32_t)chance(187300) - 93650;
    zone.saving = zone.offset + (int32_t)chance(7201) - 3600;
    zone.starts = (cron_c_turn){(uint32_t)chance(4), (uint32_t)chance(14), (uint32_t)chance(7), (uint32_t)chance(8), (int32_t)chance(90000)};
    zone.ends = (cron_c_turn){(uint32_t)chance(4), (uint32_t)chance(14), (uint32_t)chance(7), (uint32_t)chance(8), (int32_t)chance(90000)};
    return zone;
}

static int64_t some_instant(void)
{
    switch (chance(20)) {
    case 0: return CRON_C_LEAST_INSTANT + (int64_t)chance(100000);
    case 1: return CRON_C_GREATEST_INSTANT - (int64_t)chance(100000);
    default: return (int64_t)chance(INT64_C(4200000000)) - 30000000;
    }
}

static int is_leap(int64_t year)
{
    return year % 4 == 0 && (year % 100 != 0 || year % 400 == 0);
}

static int has(uint64_t word, int64_t bit)
{
    return (int)(word >> bit & 1);
}

/* Whether the clock of an item shows a time of the sets, counted day by day from 1970. */
static int matches(const cron_c_schedule *schedule, const cron_c_item *item)
{
    static const int lengths[] = {31, 28, 31, 30, 31, 30, 31, 31, 30, 31, 30, 31};
    int64_t shown = item->instant + item->offset, day = shown / 86400, year = 1970, left = day, second = shown % 86400;
    int month = 0, length = 31;
    if (shown < 0) {
        return 0;
    }
    for (; left >= 365 + is_leap(year); year++) {
        left -= 365 + is_leap(year);
    }
    for (; left >= (length = lengths[month] + (month == 1 && is_leap(year))); month++) {
        left -= length;
    }
    uint64_t years = year < 2034 ? schedule->years_from_1970 : year < 2098 ? schedule->years_from_2034 : schedule->years_from_2098;
    int64_t place = year < 2034 ? year - 1970 : year < 2098 ? year - 2034 : year - 2098;
    return has(schedule->seconds, second % 60) && has(schedule->minutes, second / 60 % 60) &&
           has(schedule->hours, second / 3600) && has(schedule->months, month) &&
           (has(schedule->days_of_month, left) || (schedule->last_day && left + 1 == length)) &&
           has(schedule->days_of_week, (day + 4) % 7) && year <= 2100 && has(years, place);
}

static int is_same(const cron_c_item *item, const cron_c_item *other)
{
    return memcmp(item, other, sizeof *item) == 0;
}

/* The first fire after an instant: none lies between, and it is found from all sides. */
static void fires(const cron_c_schedule *schedule, const cron_c_zone *zone, int64_t instant)
{
    cron_c_item first, last, at;
    uint32_t status = cron_c_fire_after(schedule, zone, instant, &first);
    uint32_t by = cron_c_fire_by(schedule, zone, instant, &last);
    LAW(by == CRON_C_NO_ITEM || (by == CRON_C_OK && last.instant <= instant && matches(schedule, &last)));
    if (status == CRON_C_NO_ITEM) {
        LAW(cron_c_fire_by(schedule, zone, CRON_C_GREATEST_INSTANT, &at) == by && (by != CRON_C_OK || is_same(&at, &last)));
        return;
    }
    LAW(status == CRON_C_OK && first.instant > instant && matches(schedule, &first));
    LAW(cron_c_fire_at(schedule, zone, first.instant, &at) == CRON_C_OK && at.instant == first.instant);
    LAW(cron_c_fire_by(schedule, zone, first.instant - 1, &at) == by && (by != CRON_C_OK || is_same(&at, &last)));
}

/* A run in pages is the run item by item. */
static void runs(const cron_c_schedule *schedule, const cron_c_zone *zone, int64_t last)
{
    const size_t length = 1 + chance(4);
    const int64_t now = last > CRON_C_GREATEST_INSTANT - 200000 ? last : last + (int64_t)chance(200000);
    static unsigned char *end;
    cron_c_item *items = before_edge(&end, length * sizeof *items), item = {0, 0, 0}, next = item;
    size_t count = 9, seen = 0;
    uint32_t status = cron_c_fires_between(schedule, zone, last, now, items, length, &count);
    uint32_t found = cron_c_fire_after(schedule, zone, last, &item);
    while (seen < 40) {
        LAW(status == CRON_C_OK || (status == CRON_C_MORE && count == length));
        for (size_t place = 0; place < count; place++, seen++) {
            LAW(found == CRON_C_OK && is_same(&items[place], &item) && item.instant <= now);
            size_t one = 0;
            next = item;
            uint32_t more = cron_c_fires_past(schedule, zone, &next, CRON_C_GREATEST_INSTANT, &item, 1, &one);
            found = more == CRON_C_OK && one == 0 ? CRON_C_NO_ITEM : CRON_C_OK;
        }
        if (status == CRON_C_OK) {
            LAW(found == CRON_C_NO_ITEM || item.instant > now);
            break;
        }
        status = cron_c_fires_past(schedule, zone, &next, now, items, length, &count);
    }
}

/* A history of one era is its zone, and one of two goes over from the first zone to the other. */
static void histories(const cron_c_schedule *schedule, const cron_c_zone *zone, int64_t last)
{
    static unsigned char *eras_end, *mine_end, *items_end;
    cron_c_era *eras = before_edge(&eras_end, 2 * sizeof *eras);
    cron_c_item *mine = before_edge(&mine_end, 3 * sizeof *mine), *items = before_edge(&items_end, 3 * sizeof *items), item;
    const int64_t now = last > CRON_C_GREATEST_INSTANT - 200000 ? last : last + (int64_t)chance(200000), seam = last + (int64_t)chance(100000);
    size_t count = 9, others = 9;
    eras[0] = (cron_c_era){INT64_MIN, *zone};
    eras[1] = (cron_c_era){seam, some_zone()};
    uint32_t status = cron_c_history_fires_between(schedule, eras, 1, last, now, mine, 3, &count);
    LAW(status == cron_c_fires_between(schedule, zone, last, now, items, 3, &others));
    LAW(count == others && memcmp(mine, items, count * sizeof *items) == 0);
    status = cron_c_history_fires_between(schedule, eras, 2, last, now, mine, 3, &count);
    const int is_zone = cron_c_fire_after(schedule, &eras[1].zone, 0, &item) != CRON_C_BAD_ZONE;
    LAW((cron_c_history_check(eras, 2) == CRON_C_OK) == is_zone);
    if (!is_zone) {
        return;
    }
    for (size_t place = 0; place < count; place++) {
        const cron_c_zone *in = mine[place].instant < seam ? zone : &eras[1].zone;
        LAW(cron_c_history_fire_after(schedule, eras, 2, mine[place].instant - 1, &item) == CRON_C_OK && item.instant == mine[place].instant);
        LAW(cron_c_history_fire_by(schedule, eras, 2, mine[place].instant, &item) == CRON_C_OK && item.instant == mine[place].instant);
        LAW(cron_c_history_fire_at(schedule, eras, 2, mine[place].instant, &item) == CRON_C_OK && item.instant == mine[place].instant);
        LAW(cron_c_fires_between(schedule, in, item.instant - 1, item.instant, items, 1, &others) != CRON_C_BAD_ZONE && others == 1);
        LAW(cron_c_history_fires_past(schedule, eras, 2, &mine[place], now, &item, 1, &others) <= CRON_C_MORE);
        LAW(place + 1 == count ? others == (status == CRON_C_MORE) : is_same(&item, &mine[place + 1]));
    }
    LAW(status == CRON_C_OK || count == 3);
}

/* Over eras in any order, of any numbers, calls return. What they write are items beyond the instant. */
static void eras_in_any_order(const cron_c_schedule *schedule, int64_t last)
{
    enum { MANY = 5 };
    static unsigned char *eras_end, *items_end;
    cron_c_era *eras = before_edge(&eras_end, MANY * sizeof *eras);
    cron_c_item *items = before_edge(&items_end, 3 * sizeof *items), item;
    size_t count = 9;
    for (size_t place = 0; place < MANY; place++) {
        eras[place] = (cron_c_era){last - 50000 + (int64_t)chance(100000), some_zone()};
    }
    uint32_t status = cron_c_history_fire_after(schedule, eras, MANY, last, &item);
    LAW(status == CRON_C_OK ? item.instant > last : status == CRON_C_NO_ITEM || status == CRON_C_BAD_ZONE || status == CRON_C_BAD_INSTANT);
    status = cron_c_history_fire_by(schedule, eras, MANY, last, &item);
    LAW(status == CRON_C_OK ? item.instant <= last : status == CRON_C_NO_ITEM || status == CRON_C_BAD_ZONE || status == CRON_C_BAD_INSTANT);
    status = cron_c_history_fires_between(schedule, eras, MANY, last, CRON_C_GREATEST_INSTANT, items, 3, &count);
    LAW(count <= 3 && (status == CRON_C_OK || status == CRON_C_MORE || count == 0));
    for (size_t place = 0; place < count; place++) {
        LAW(items[place].instant > last && items[place].reserved == 0);
    }
}

enum { KINDS = 3 };

/* An entry with its next fire after an instant, or none, or one of any numbers. */
static cron_c_entry some_entry(const cron_c_schedule *schedules, const cron_c_era *eras, int64_t instant)
{
    cron_c_entry entry = {chance(KINDS + 1), 0, chance(2), 1, {instant, 0, 0}, 1 + (uint32_t)chance(2), 0, (int64_t)chance(9), chance(9)};
    entry.schedules_length = chance(KINDS + 1 - entry.schedules_from);
    if (chance(12) == 0) {
        entry.eras_length = chance(4);
        entry.schedules_length += chance(2);
        entry.rule = (uint32_t)chance(5);
        return entry;
    }
    const uint32_t status = (entry.rule == CRON_C_ONCE ? cron_c_union_due_after : cron_c_union_fire_after)(
        schedules + entry.schedules_from, entry.schedules_length, eras + entry.eras_from, 1, instant, &entry.next);
    if (status != CRON_C_OK) {
        entry.rule = CRON_C_NO_ENTRY;
    }
    return entry;
}

/* Whether a call over the entry's own schedules and eras tells that this is its next fire past an item; with none it has ended. */
static int goes_on(const cron_c_schedule *schedules, const cron_c_era *eras, const cron_c_entry *entry, uint32_t rule, const cron_c_item *item)
{
    cron_c_item next = *item;
    size_t count = 0;
    const uint32_t status = (rule == CRON_C_ONCE ? cron_c_union_dues_past : cron_c_union_fires_past)(
        schedules + entry->schedules_from, entry->schedules_length, eras + entry->eras_from, entry->eras_length, item,
        CRON_C_GREATEST_INSTANT, &next, 1, &count);
    return status <= CRON_C_MORE && (count == 1 ? entry->rule == rule : entry->rule == CRON_C_NO_ENTRY) && is_same(&next, &entry->next);
}

/* What an agenda takes is what a scan through all entries finds, while entries come and go. */
static void agendas(const cron_c_zone *zone, int64_t instant)
{
    static unsigned char *schedules_end, *eras_end, *entries_end;
    const size_t length = 1 + chance(9);
    cron_c_schedule *schedules = before_edge(&schedules_end, KINDS * sizeof *schedules);
    cron_c_era *eras = before_edge(&eras_end, 2 * sizeof *eras);
    cron_c_entry *entries = before_edge(&entries_end, length * sizeof *entries);
    for (size_t kind = 0; kind < KINDS; kind++) {
        schedules[kind] = some_schedule();
    }
    eras[0] = (cron_c_era){INT64_MIN, *zone};
    eras[1] = (cron_c_era){INT64_MIN, some_zone()};
    memset(entries, 0, length * sizeof *entries);
    LAW(cron_c_agenda_begin(entries, length) == CRON_C_OK);
    for (int step = 0; step < 40; step++) {
        size_t first = length, place = 99;
        if (chance(3) == 0) {
            const cron_c_entry entry = some_entry(schedules, eras, instant + (int64_t)chance(100000));
            LAW(cron_c_agenda_put(entries, length, chance(length), &entry) == CRON_C_OK);
        }
        for (size_t at = 0; at < length; at++) {
            if (entries[at].rule != CRON_C_NO_ENTRY && (first == length || entries[at].next.instant < entries[first].next.instant)) {
                first = at;
            }
        }
        cron_c_entry before = first < length ? entries[first] : entries[0];
        cron_c_item item = before.next;
        LAW(cron_c_agenda_instant(entries) == (first < length ? before.next.instant : INT64_MAX));
        const uint32_t status = cron_c_agenda_next(schedules, KINDS, eras, 2, entries, length, cron_c_agenda_instant(entries), &place, &item);
        if (first == length) {
            LAW(status == CRON_C_NO_ITEM && place == 99);
        } else if (status == CRON_C_OK) {
            LAW(place == first && is_same(&item, &before.next) && goes_on(schedules, eras, entries + first, before.rule, &item));
        } else {
            LAW((status == CRON_C_BAD_ZONE || status == CRON_C_NOT_AN_ITEM) && place == first && memcmp(&before, entries + first, sizeof before) == 0);
            before.rule = CRON_C_NO_ENTRY;
            LAW(cron_c_agenda_put(entries, length, place, &before) == CRON_C_OK);
        }
    }
}

/* A walk goes back where it came from, and lists are walks. */
static void walks(const cron_c_schedule *schedule, const cron_c_zone *zone, int64_t instant)
{
    static unsigned char *end;
    cron_c_item first, item, back, *items = before_edge(&end, 3 * sizeof *items);
    size_t count = 9;
    uint32_t status = cron_c_after(schedule, zone, instant, &first);
    LAW(cron_c_list_after(schedule, zone, instant, items, 3, &count) == CRON_C_OK && (count > 0) == (status == CRON_C_OK));
    if (status != CRON_C_OK) {
        LAW(status == CRON_C_NO_ITEM);
        return;
    }
    LAW(is_same(&items[0], &first) && matches(schedule, &first));
    item = first;
    LAW(cron_c_list_next(schedule, zone, &first, items, 3, &count) == CRON_C_OK);
    for (size_t place = 0; place < count; place++) {
        LAW(cron_c_next(schedule, zone, &item) == CRON_C_OK && is_same(&items[place], &item));
    }
    for (size_t place = count; place > 0; place--) {
        LAW(is_same(&items[place - 1], &item) && cron_c_prev(schedule, zone, &item) == CRON_C_OK);
    }
    LAW(is_same(&item, &first));
    back = first;
    LAW(cron_c_list_prev(schedule, zone, &first, items, 3, &count) == CRON_C_OK);
    LAW((count > 0) == (cron_c_prev(schedule, zone, &back) == CRON_C_OK) && (count == 0 || is_same(&items[0], &back)));
    item.instant += 1 + (int64_t)chance(1000000);
    LAW(cron_c_next(schedule, zone, &item) != CRON_C_BAD_ZONE);
}

/* A text is read into schedules, or refused, by the readers of crontabs and of Quartz. */
static void several(const char *text, size_t length, char *message, size_t room)
{
    static unsigned char *end;
    cron_c_schedule *schedules = before_edge(&end, CRON_C_QUARTZ_SCHEDULES * sizeof *schedules);
    size_t needed = 7, count = 99;
    uint32_t status = cron_c_crontab_parse(text, length, schedules + CRON_C_QUARTZ_SCHEDULES - 2, 2, &count, message, room, &needed);
    LAW(status == CRON_C_OK ? count <= 2 : count == 0 && (status == CRON_C_REFUSED || status == CRON_C_NOT_UTF8));
    LAW((needed > 0) == (status == CRON_C_REFUSED) && needed < CRON_C_MESSAGE(length));
    status = cron_c_quartz_parse(text, length, schedules, CRON_C_QUARTZ_SCHEDULES, &count, message, room, &needed);
    LAW(status == CRON_C_OK ? count > 0 && count <= CRON_C_QUARTZ_SCHEDULES : count == 0 && (status == CRON_C_REFUSED || status == CRON_C_NOT_UTF8));
    LAW((needed > 0) == (status == CRON_C_REFUSED) && needed < CRON_C_MESSAGE(length));
}

/* Random bytes, or a text with a byte changed, are read without a byte past their end. */
static void texts(void)
{
    static const char letters[] = "0123456789*?,-/ LMonJanuary@dailySatW#\xff";
    static const char *const goods[] = {"0 30 9,12,15 1,15,L May-Aug Mon,Wed,Fri 2018/2", "0 30 9 L-3W May-Aug ? 2018", "30 9-12/2 13 * fri"};
    const char *good = goods[chance(3)];
    const size_t length = chance(60), room = chance(90);
    static unsigned char *text_end, *message_end;
    char *text = before_edge(&text_end, length), *message = before_edge(&message_end, room);
    cron_c_schedule schedule;
    cron_c_zone zone;
    size_t needed = 7;
    for (size_t place = 0; place < length; place++) {
        int kept = place < strlen(good) && chance(12);
        text[place] = kept ? good[place] : letters[chance(sizeof letters - 1)];
    }
    uint32_t status = cron_c_parse(text, length, &schedule, message, room, &needed);
    LAW(status == CRON_C_OK || status == CRON_C_REFUSED || status == CRON_C_NOT_UTF8);
    LAW((needed > 0) == (status == CRON_C_REFUSED) && needed < CRON_C_MESSAGE(length));
    status = cron_c_zone_parse(text, length, &zone);
    LAW(status == CRON_C_OK || status == CRON_C_BAD_ZONE);
    const uint32_t read = status;
    uint32_t place = 9;
    status = cron_c_zone_source(text, length, text, length, (uint32_t)chance(2), &zone, &place, message, room, &needed);
    LAW(status == CRON_C_OK ? place <= CRON_C_ZONE_IN_FOLDER : place == 9 && (status == CRON_C_BAD_ZONE || status == CRON_C_NOT_UTF8));
    LAW((read == CRON_C_OK) == (place == CRON_C_ZONE_STATED) && needed == (place == CRON_C_ZONE_IN_FOLDER ? length : 0));
    several(text, length, message, room);
}

/* The bytes of a zone file with some of them changed are eras, or refused. */
static void zone_files(const cron_c_schedule *schedule)
{
    const size_t length = chance(4) ? sizeof PYONGYANG : chance(sizeof PYONGYANG + 20), room = chance(8);
    static unsigned char *bytes_end, *eras_end;
    uint8_t *bytes = before_edge(&bytes_end, length);
    cron_c_era *eras = before_edge(&eras_end, room * sizeof *eras), kept;
    cron_c_item item;
    size_t count = 9999;
    for (size_t place = 0; place < length; place++) {
        bytes[place] = place < sizeof PYONGYANG ? PYONGYANG[place] : (uint8_t)chance(256);
    }
    for (uint64_t left = length == 0 ? 0 : chance(4); left > 0; left--) {
        bytes[chance(length)] = (uint8_t)(chance(2) ? chance(256) : chance(6));
    }
    memset(eras, 0x5a, room * sizeof *eras);
    memset(&kept, 0x5a, sizeof kept);
    uint32_t status = cron_c_history_read(bytes, length, eras, room, &count);
    LAW(status == CRON_C_OK || status == CRON_C_BAD_ZONE || status == CRON_C_MORE);
    LAW(status == CRON_C_OK ? count >= 1 && count <= room : status == CRON_C_MORE ? count > room : count == 0);
    for (size_t place = status == CRON_C_OK ? count : 0; place < room; place++) {
        LAW(memcmp(eras + place, &kept, sizeof kept) == 0);
    }
    LAW(status != CRON_C_OK || (eras[0].starts == INT64_MIN && eras[0].zone.kind == 1) || (count == 1 && eras[0].zone.kind == 2));
    LAW(status != CRON_C_OK || cron_c_history_fire_after(schedule, eras, count, some_instant(), &item) <= CRON_C_NO_ITEM);
}

/* The text of an item fits. */
static void formats(void)
{
    cron_c_item item = {some_instant(), (int32_t)chance(200000) - 100000, (uint32_t)(chance(10) == 0)};
    const size_t room = chance(CRON_C_ITEM_TEXT + 2);
    static unsigned char *end;
    char *text = before_edge(&end, room);
    size_t needed = 7;
    uint32_t status = cron_c_format(&item, text, room, &needed);
    LAW(status == CRON_C_OK ? needed == 26 || needed == 29 : status == CRON_C_NOT_AN_ITEM && needed == 0);
}

int main(int count, char **words)
{
    const unsigned long cases = count > 1 ? strtoul(words[1], NULL, 10) : 2000;
    state = count > 2 ? strtoul(words[2], NULL, 10) | 1 : 1;
    for (at_case = 0; at_case < cases; at_case++) {
        cron_c_schedule schedule = some_schedule();
        cron_c_zone zone = some_zone();
        const int64_t instant = some_instant();
        cron_c_item item;
        texts();
        formats();
        zone_files(&schedule);
        if (cron_c_fire_after(&schedule, &zone, instant, &item) == CRON_C_BAD_ZONE) {
            LAW(cron_c_after(&schedule, &zone, instant, &item) == CRON_C_BAD_ZONE);
            continue;
        }
        fires(&schedule, &zone, instant);
        runs(&schedule, &zone, instant);
        walks(&schedule, &zone, instant);
        histories(&schedule, &zone, instant);
        eras_in_any_order(&schedule, instant);
        agendas(&zone, instant);
    }
    printf("examples: %lu random cases keep the laws\n", cases);
    return 0;
}
