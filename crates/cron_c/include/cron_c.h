/*
 * Cron expressions from C: what a text means, and the items of its timeline in a zone: each second of
 * the years 1970 to 2100 that matches on the clock of the zone, once for each instant at which the
 * clock shows it, and none that the clock skips.
 *
 * C11 or later, and C++11 or later. Link `libcron_c.a` or `libcron_c.so`, x86-64-v2 code for Linux
 * (ELF). It needs no other library than that of C, keeps nothing between calls, and starts no
 * thread. Each call reads and writes what its arguments point to and nothing else, so calls may run
 * at the same time where none writes to what another is given: threads may share a schedule, a zone
 * and eras. None takes memory but `cron_c_history_read`, which gives back what it took before it
 * returns.
 *
 * Rules for every call, which no proof of the library can see:
 *   - No pointer may be null, also where its length is 0.
 *   - A pointer with a length points to so many bytes, items or eras. A text or a message has no
 *     byte 0 at its end.
 *   - What a call writes to overlaps nothing else that it is given.
 */
#ifndef CRON_C_H
#define CRON_C_H

#include <stddef.h>
#include <stdint.h>

#ifdef __cplusplus
extern "C" {
#endif

/* The version of this header: 10,000 times its first number, 100 times its second, and its third. */
#define CRON_C_VERSION 10700

/* The version of the archive. Its first number is that of the header, or the structs may differ. */
uint32_t cron_c_version(void);

/*
 * A string literal as the two arguments of a text: its bytes and how many. A pointer, whose size isn't
 * its text's, and an array, whose text may end before it does, are refused by the compiler, since
 * neither can stand between two literals.
 */
#define CRON_C_TEXT(literal) ("" literal ""), (sizeof("" literal "") - 1)

/* The arguments for a message or a text that isn't wanted: a place that no call writes to, and its length. */
#define CRON_C_NO_TEXT cron_c_no_text(), 0

static inline char *cron_c_no_text(void)
{
    static char none[1];
    return none;
}

/* The least and the greatest instant that a call takes, in seconds since 1970-01-01T00:00:00Z. */
#define CRON_C_LEAST_INSTANT INT64_C(-377705023201)
#define CRON_C_GREATEST_INSTANT INT64_C(253402207200)

/*
 * The bytes that hold the text of any item, of any due fire, and of any schedule, and the message that refuses a
 * text of so many bytes.
 */
#define CRON_C_ITEM_TEXT 29
#define CRON_C_DUE_TEXT 53
#define CRON_C_SCHEDULE_TEXT 1245
#define CRON_C_MESSAGE(text_length) (2 * (text_length) + 100)

/*
 * What a call answers. Where it is neither CRON_C_OK nor CRON_C_MORE, the structs that the call
 * writes to are as they were, but for the items of a list over eras that are no history.
 */
enum {
    CRON_C_OK = 0,          /* What was asked for was written. */
    CRON_C_NO_ITEM = 1,     /* The timeline has no item there. */
    CRON_C_REFUSED = 2,     /* The text means nothing, and the message says why. */
    CRON_C_NOT_UTF8 = 3,    /* The text isn't UTF-8. */
    CRON_C_BAD_ZONE = 4,    /* The text names no zone, or the numbers, the bytes or the eras are of none. */
    CRON_C_BAD_INSTANT = 5, /* The instant is less than the least one, or past the greatest. */
    CRON_C_NOT_AN_ITEM = 6, /* The call takes no such item or schedule, and says which it takes. */
    CRON_C_UNTOLD = 7,      /* As CRON_C_REFUSED, but no message can be told; what its buffer holds means nothing. */
    CRON_C_MORE = 8,        /* More is left than fits. What fits was written, where items are listed, and else nothing. */
    CRON_C_NO_MEMORY = 9    /* Out of memory. */
};

/* What a status says, in English. */
static inline const char *cron_c_status_text(uint32_t status)
{
    switch (status) {
    case CRON_C_OK: return "done";
    case CRON_C_NO_ITEM: return "there is no such item";
    case CRON_C_REFUSED: return "the text means nothing";
    case CRON_C_NOT_UTF8: return "the text isn't UTF-8";
    case CRON_C_BAD_ZONE: return "there is no such zone";
    case CRON_C_BAD_INSTANT: return "the instant is out of range";
    case CRON_C_NOT_AN_ITEM: return "the item or the schedule is none that the call takes";
    case CRON_C_UNTOLD: return "the text means nothing, and no message can be told";
    case CRON_C_MORE: return "more is left than fits";
    case CRON_C_NO_MEMORY: return "out of memory";
    default: return "no status";
    }
}

/*
 * A schedule: seven sets, a bit for each ordinal. Copy it and keep it as you like.
 *
 *   word            unit                        bits
 *   seconds         0 to 59                     bit i is second i
 *   minutes         0 to 59                     bit i is minute i
 *   hours           0 to 23                     bit i is hour i
 *   days_of_month   1 to 31                     bit i is day i + 1
 *   last_day        0 or 1                      any number but 0: the last day of each month too
 *   months          1 to 12                     bit i is month i + 1
 *   days_of_week    1 to 7, from Sunday on      bit i is day i + 1
 *   years_from_N    1970 to 2100                bit i is year N + i
 *
 * Every pattern of bits is a schedule. A bit outside the unit means nothing, and `cron_c_parse` sets
 * none; it writes 0 or 1 as `last_day`. A unit without a bit has no ordinal, and the timeline then
 * no item, but for days of the month with a `last_day`. What `reserved` holds means nothing yet:
 * give 0, as `cron_c_parse` writes.
 */
typedef struct cron_c_schedule {
    uint64_t seconds;
    uint64_t minutes;
    uint64_t hours;
    uint64_t days_of_month;
    uint64_t last_day;
    uint64_t months;
    uint64_t days_of_week;
    uint64_t years_from_1970;
    uint64_t years_from_2034;
    uint64_t years_from_2098;
    uint64_t reserved[6];
} cron_c_schedule;

/*
 * An item of a timeline: an instant, in seconds since 1970-01-01T00:00:00Z, and the offset at which
 * the clock of the zone reads it, in seconds ahead of UTC (of a rule that contradicts itself see
 * `cron_c_zone`). What the clock shows is the sum of both. In a fold the clock shows the same twice,
 * and the two items differ in both numbers. `reserved` is 0 but in due fires (`cron_c_due_after`) of
 * matches that a clock passes over: calls that take no due fire refuse an item that has another number
 * there. The struct has no padding, so items are the same where their bytes are.
 */
typedef struct cron_c_item {
    int64_t instant;
    int32_t offset;
    uint32_t reserved;
} cron_c_item;

/*
 * Reads a text, as `0 0,30 9 * * Mon-Fri` or `@daily`, into `schedule`.
 *
 * CRON_C_OK, CRON_C_REFUSED, CRON_C_NOT_UTF8 or CRON_C_UNTOLD. With CRON_C_REFUSED the front of the
 * message is written to `message`, as far as it fits, and the length of the whole message to
 * `*message_needed`, which is 0 with each other status. A message is shorter than twice the text and
 * 100 bytes.
 */
uint32_t cron_c_parse(const char *text, size_t text_length,
                      cron_c_schedule *schedule,
                      char *message, size_t message_length, size_t *message_needed);

/*
 * Reads an expression of a crontab, five fields as `30 9 * * mon-fri` or a nickname as `@daily`, into the
 * schedules that it means, and writes to `*count` how many they are: two where neither the third nor
 * the fifth field begins with a star, since then one kind of day suffices, and else one. It fires when
 * any of them does: give all of them to the calls over several schedules (below). Each is read at
 * second 0, in all years. `@reboot`, which no clock fires, is read into none: `*count` is 0 with
 * CRON_C_OK for this word alone. An expression that never fires, as `0 22-2 * * *`, is read as any
 * other. What Debian's cron and cronie read otherwise than each other is refused, and so is a text of
 * two lines.
 *
 * Not told is whether an entry follows the clock: both crons let one do so whose minute or hour begins
 * with `*`, and `@hourly`. Fire those by the fires, and all others by the due fires.
 *
 * CRON_C_OK, CRON_C_REFUSED, CRON_C_NOT_UTF8 or CRON_C_UNTOLD, and the message as by `cron_c_parse`; or
 * CRON_C_MORE where they are more than `schedules_length`, and nothing is written but their number in
 * `*count`. Room for two is enough. With CRON_C_REFUSED, CRON_C_NOT_UTF8 and CRON_C_UNTOLD `*count` is 0.
 */
uint32_t cron_c_crontab_parse(const char *text, size_t text_length,
                              cron_c_schedule *schedules, size_t schedules_length, size_t *count,
                              char *message, size_t message_length, size_t *message_needed);

/* As many schedules as an expression of Quartz may be. */
#define CRON_C_QUARTZ_SCHEDULES 12

/*
 * Reads an expression of Quartz alike: six fields or seven with years, as `0 0 12 L-3 * ?` or
 * `0 0 12 ? * 6#3`. Seconds come first, Sunday is 1, and `?` stands for exactly one kind of day. Its
 * forms of days are several schedules, up to three for each length of a month, of which some may never
 * fire. What Quartz reads and doesn't heed is refused, as `MON-FRI/2`, and so is what it refuses.
 */
uint32_t cron_c_quartz_parse(const char *text, size_t text_length,
                             cron_c_schedule *schedules, size_t schedules_length, size_t *count,
                             char *message, size_t message_length, size_t *message_needed);

/*
 * Reads a line of a crontab, without its line feed, into the schedules of its entry, as
 * `cron_c_crontab_parse` reads an expression. With `is_system` 0 the crontab is a user's own; with any
 * other number its entries name a user behind the fields. Any bytes but NUL may stand in a command,
 * and a line feed at its end alone: a text of two lines is refused.
 *
 * `CRON_TZ=ZONE` is answered as any other setting, and its zone isn't told: find such a line by its
 * name, since in cronie the entries below it fire in that zone.
 *
 * CRON_C_OK, CRON_C_REFUSED, CRON_C_UNTOLD or CRON_C_MORE, with `*count` and the message as by
 * `cron_c_crontab_parse`; or CRON_C_NO_ITEM where the line is blank, a comment or a setting, with
 * `*count` 0.
 */
uint32_t cron_c_crontab_line_parse(const char *line, size_t line_length, uint32_t is_system,
                                   cron_c_schedule *schedules, size_t schedules_length, size_t *count,
                                   char *message, size_t message_length, size_t *message_needed);

/*
 * When a clock turns each year. The time is in seconds from the midnight that begins the day, on the
 * clock as it is before the turn, -604,799 to 604,799.
 *
 *   kind 1    day 1 to 365 of the year, where 29 February isn't counted
 *   kind 2    day 0 to 365 of the year, where 29 February is counted; a rule with day 365 may
 *             contradict itself (below) in the years that have no such day
 *   kind 3    day 0 to 6 of the week, from Sunday on, in week 1 to 5 of month 1 to 12; 5 is the last
 */
typedef struct cron_c_turn {
    uint32_t kind;
    uint32_t month;
    uint32_t week;
    uint32_t day;
    int32_t time;
} cron_c_turn;

/*
 * A zone. Read it once, copy it and keep it as you like. Offsets are in seconds ahead of UTC, up to
 * 25:59:59. `saving` is the whole offset while the saving holds, as -18000 for CDT, and not the hour
 * that it adds; it holds each year from `starts` to `ends`. What `reserved` holds means nothing yet:
 * give 0. Numbers that say no zone are answered by CRON_C_BAD_ZONE.
 *
 * A rule whose turns lie at the very edge of a year, or nearer to each other than the clock goes forth
 * and back, or come in another order in another year, may contradict itself, as `EST5EDT,0/0,J365/25`
 * and `AAA11BBB,169,M6.3.3` do in some hours: it tells of an instant another offset than of the time
 * that the clock shows. Items go by what it tells of the time that the clock shows.
 *
 *   kind 0    UTC
 *   kind 1    one offset
 *   kind 2    an offset and a saving
 */
typedef struct cron_c_zone {
    uint32_t kind;
    int32_t offset;
    int32_t saving;
    cron_c_turn starts;
    cron_c_turn ends;
    uint32_t reserved[3];
} cron_c_zone;

/* What a zone is initialized with: UTC, and one offset of so many seconds. */
#define CRON_C_ZONE_UTC {0, 0, 0, {0, 0, 0, 0, 0}, {0, 0, 0, 0, 0}, {0, 0, 0}}
#define CRON_C_ZONE_FIXED(seconds) {1, (seconds), 0, {0, 0, 0, 0, 0}, {0, 0, 0, 0, 0}, {0, 0, 0}}

/*
 * Reads the text of a zone into `zone`: `UTC`, or a rule as POSIX has it, as
 * `CST6CDT,M3.2.0,M11.1.0`. A saving needs both of its dates, a name has 3 to 15 bytes, and nothing
 * may follow, also no newline. The names are dropped, and what says nothing of the zone is written
 * as 0.
 *
 * CRON_C_OK or CRON_C_BAD_ZONE.
 */
uint32_t cron_c_zone_parse(const char *text, size_t text_length, cron_c_zone *zone);

/* Where the zone of a text is found. */
enum {
    CRON_C_ZONE_STATED = 0,     /* In the text: `zone` was written. */
    CRON_C_ZONE_IN_FOLDER = 1,  /* In the file of this name below the folder of zone files, as /usr/share/zoneinfo. */
    CRON_C_ZONE_AT_PATH = 2,    /* In the file at this absolute path. */
    CRON_C_ZONE_OF_MACHINE = 3  /* In the machine's own file, /etc/localtime. Where there is none the zone is UTC. */
};

/*
 * Tells in `*place` where the zone of a text is found. `UTC` and the rules that `cron_c_zone_parse` reads
 * are written to `zone`. Any other name, as `America/Chicago`, is that of a file. `local` is what the
 * variable TZ says, which is given as `tz`, with a `tz_is_set` other than 0; with 0 it isn't set, and the
 * zone is the machine's own. An empty TZ is UTC. It may begin with a colon, behind which an absolute path
 * may stand. The name or the path is written to `path`, as far as it fits, and its length, which is no
 * greater than that of the text or of TZ, to `*path_needed`; 0 where no file is named. Read that file
 * alone, and give its bytes to `cron_c_history_read`.
 *
 * A name has letters, digits and `+-_./`. No piece between its slashes is empty or begins with a dot, and
 * it isn't below `right/`: so it can't leave the folder. A text that is both, as `EST5`, is the rule.
 *
 * CRON_C_OK; CRON_C_BAD_ZONE where the text, or for `local` what TZ holds, names no zone; or
 * CRON_C_NOT_UTF8 where the text isn't UTF-8, or a TZ that is set isn't. With the last two `*place` is as
 * it was, and `*path_needed` 0.
 */
uint32_t cron_c_zone_source(const char *text, size_t text_length,
                            const char *tz, size_t tz_length, uint32_t tz_is_set,
                            cron_c_zone *zone, uint32_t *place,
                            char *path, size_t path_length, size_t *path_needed);

/*
 * Which call to use:
 *
 *   a scheduler, and whoever asks what was missed    by instants: `cron_c_fire_after` and its like
 *   a job that must run once for each match          due fires: `cron_c_due_after` and its like
 *   a calendar, and whoever lists what clocks show   the walk: `cron_c_after` and its like
 *
 * They differ only where a clock goes back, or a rule contradicts itself. The walk goes along the
 * times that the clock shows, and answers both readings of a repeated one before the next. By
 * instants the items come as time passes. Both answer nothing where the clock skips a match, and a
 * repeated one twice. By due fires each match comes once.
 */

/*
 * Writes to `item` the earliest of the items whose instant comes after the given one; or,
 * `cron_c_fire_by`, the latest of those whose instant is the given one or comes before it. Each is
 * exact in every zone, also where a clock goes back. To go on, ask `cron_c_fire_after` anew from the
 * instant of its answer, and `cron_c_fire_by` from the second before it, since from the instant
 * itself it answers the same item again. Two items share an instant only in zones whose rule
 * contradicts itself; of these `cron_c_fire_after` answers the one that shows less, and
 * `cron_c_fire_by` the other. Asked anew, each leaves out the one that it didn't answer;
 * `cron_c_fires_past` goes on from an item and leaves none out. For an instant with a part of a
 * second give the second that has begun.
 *
 * CRON_C_OK, CRON_C_NO_ITEM, CRON_C_BAD_ZONE or CRON_C_BAD_INSTANT.
 */
uint32_t cron_c_fire_after(const cron_c_schedule *schedule,
                           const cron_c_zone *zone,
                           int64_t instant, cron_c_item *item);
uint32_t cron_c_fire_by(const cron_c_schedule *schedule,
                        const cron_c_zone *zone,
                        int64_t instant, cron_c_item *item);

/*
 * Writes to `item` the item whose instant is the given one; of two that share it that which shows
 * more.
 *
 * CRON_C_OK, CRON_C_NO_ITEM, CRON_C_BAD_ZONE or CRON_C_BAD_INSTANT.
 */
uint32_t cron_c_fire_at(const cron_c_schedule *schedule,
                        const cron_c_zone *zone,
                        int64_t instant, cron_c_item *item);

/*
 * Writes to `items` the items whose instant comes after `last` and not after `now`, the earliest
 * first, as far as they fit, and to `*count` how many were written. `cron_c_fires_past` does so with the
 * items that are later than a given one, which may be none of the timeline: by it a list goes on
 * from the last item of a page, and a run after a restart from the item that was noted. Copy that
 * item first, since `items` is written to. No item is left out or comes twice at the seam of two
 * pages, nor at that of two stretches from one instant to the next. A list that goes on by its last
 * item wants room for at least one.
 *
 * CRON_C_OK where these are all; CRON_C_MORE where `items` is full and others are left;
 * CRON_C_BAD_ZONE or CRON_C_BAD_INSTANT; or of `cron_c_fires_past` CRON_C_NOT_AN_ITEM, where the
 * clock shows a year outside 1970 to 2100, the offset is longer than 25:59:59, or `reserved` isn't
 * 0. With the last three `*count` is 0.
 */
uint32_t cron_c_fires_between(const cron_c_schedule *schedule,
                              const cron_c_zone *zone,
                              int64_t last, int64_t now,
                              cron_c_item *items, size_t items_length, size_t *count);
uint32_t cron_c_fires_past(const cron_c_schedule *schedule,
                           const cron_c_zone *zone,
                           const cron_c_item *item, int64_t now,
                           cron_c_item *items, size_t items_length, size_t *count);

/*
 * Due fires: each match once, also where the clock changes. A match is due at the first instant at
 * which the clock of the zone shows it or a later time: in a fold at its first pass, and where the
 * clock skips it at the instant at which the clock passes over it. In Chicago `0 30 2 * * *` is due on
 * 2022-03-13 at 08:00:00Z, where the clock goes from 02:00 to 03:00, and `0 30 1 * * *` on 2022-11-06
 * at 06:30:00Z alone.
 *
 * `instant` is then the due instant, `offset` the clock's offset at it, and `reserved` by how many
 * seconds what the clock shows there lies past the match: 0 where the clock shows it, and at most
 * 187,198. So the match itself, the nominal time, is `instant + offset - reserved`. It lies in 1970 to
 * 2100, and what the clock shows may lie in 2101.
 *
 * All matches that the clock passes over at one instant share it, and so may the match that it shows
 * there. They come by their nominal times. So go on from the item that was run, by `cron_c_due_past` or
 * `cron_c_dues_past`, and never from its instant, since `cron_c_due_after` answers the first of them
 * alone.
 *
 * `cron_c_due_after` writes to `item` the first due fire whose instant comes after the given one, and
 * `cron_c_due_by` the last one whose instant is the given one or comes before it. `cron_c_due_past` puts
 * the first due fire past `*item` in its place, and `cron_c_dues_past` lists those past `item` up to and
 * with `now`; the given item may be none of this schedule, since its nominal time alone counts. They
 * take each item of the other calls too. `cron_c_dues_between` and `cron_c_dues_past` fill an array as
 * `cron_c_fires_between` and `cron_c_fires_past` do.
 *
 * CRON_C_OK, CRON_C_BAD_ZONE; of the first two calls CRON_C_NO_ITEM or CRON_C_BAD_INSTANT; of
 * `cron_c_due_past` CRON_C_NO_ITEM or CRON_C_NOT_AN_ITEM; of the lists CRON_C_MORE or
 * CRON_C_BAD_INSTANT, and of `cron_c_dues_past` CRON_C_NOT_AN_ITEM too: the nominal time lies outside
 * 1970 to 2100, the offset is longer than 25:59:59, or `reserved` is greater than 187,198.
 */
uint32_t cron_c_due_after(const cron_c_schedule *schedule,
                          const cron_c_zone *zone,
                          int64_t instant, cron_c_item *item);
uint32_t cron_c_due_by(const cron_c_schedule *schedule,
                       const cron_c_zone *zone,
                       int64_t instant, cron_c_item *item);
uint32_t cron_c_due_past(const cron_c_schedule *schedule,
                         const cron_c_zone *zone, cron_c_item *item);
uint32_t cron_c_dues_between(const cron_c_schedule *schedule,
                             const cron_c_zone *zone,
                             int64_t last, int64_t now,
                             cron_c_item *items, size_t items_length, size_t *count);
uint32_t cron_c_dues_past(const cron_c_schedule *schedule,
                          const cron_c_zone *zone,
                          const cron_c_item *item, int64_t now,
                          cron_c_item *items, size_t items_length, size_t *count);

/*
 * An era: from `starts` on, in seconds since 1970-01-01T00:00:00Z, the clock is that of `zone`, until
 * the next era starts. The last era has no end. What starts before every instant is given INT64_MIN.
 *
 * Eras one after another are a zone with a history, as a zone's file tells it: one before the first
 * transition of its table, and one from each of them on, all of CRON_C_ZONE_FIXED but the last, which
 * has the zone of the file's rule, if there is one. An item of the history is an item of an era's zone
 * whose instant lies in that era. So no item lies before the first era, and without an era there is
 * none. The last eras of a list, from any of them on, are a history too. From the era that holds the
 * instant on they serve the calls by instants but those named `_fire_by`, whose answer may lie in any
 * earlier era, and none by due fires, which ask what the clock showed before.
 */
typedef struct cron_c_era {
    int64_t starts;
    cron_c_zone zone;
} cron_c_era;

/* Enough eras for each file of the time zone database 2025b, the longest of which have 311. */
#define CRON_C_ERAS 400

/*
 * Reads the bytes of a compiled zone file (TZif, RFC 9636), as /usr/share/zoneinfo holds them. It
 * writes to `eras` the eras that mean its zone, and to `*count` how many they are. At each instant the
 * era that holds it has the offset that the file tells for it. The first one starts before every
 * instant, and the last one has the rule on the last line of the file. Without a rule there, as in a
 * file of version 1, the last offset of the table holds for ever. A transition outside the instants
 * counts as at the first or the last of them. Leap seconds are passed over. So a file that counts
 * them, as those below `right/`, gives eras that start up to half a minute late, and it may tell of no
 * transition past the day on which its leap seconds expire: don't give such a file.
 *
 * CRON_C_OK; or CRON_C_MORE where they are more than `eras_length`, and nothing is written but their
 * number in `*count`. With the other statuses `*count` is 0. CRON_C_NO_MEMORY where malloc has no
 * room for what the bytes say. CRON_C_BAD_ZONE where the bytes are none of such a file, or one of
 * these holds:
 *   - They tell more than 256 kinds of local time, or an offset beyond 25:59:59.
 *   - A kind of local time says neither 0 nor 1 of saving time, or its name has more than 15 bytes.
 *   - Two transitions share a second.
 *   - The times that a transition skips or repeats on the clock overlap those of the next one.
 *   - At the last transition the rule says another offset or another name than the table, or
 *     saving time where the table has none, or the other way round.
 * Not to be called from a signal handler.
 */
uint32_t cron_c_history_read(const uint8_t *bytes, size_t bytes_length,
                             cron_c_era *eras, size_t eras_length, size_t *count);

/*
 * Tells whether eras are a history: the numbers of each say a zone, and each starts later than the one
 * before it. What `cron_c_history_read` writes is one. Check other eras once, before the calls below.
 *
 * CRON_C_OK or CRON_C_BAD_ZONE.
 */
uint32_t cron_c_history_check(const cron_c_era *eras, size_t eras_length);

/*
 * The calls by instants over a history. They answer as those over a zone do, `cron_c_fire_after` and
 * its like, also at the seams of eras: no item is left out there or comes twice, and where the clock
 * goes back from one era to the next, both items come, each at its instant. A call finds the era of an
 * instant by halving, and passes over eras in which no clock can show a match.
 *
 * Statuses are the same. `cron_c_history_fires_past` takes an item of this history or any other.
 *
 * Give eras that are a history: `cron_c_history_check` tells so. A call looks at the eras that it comes
 * to. It answers CRON_C_BAD_ZONE where the numbers of one of them say no zone, or the next one starts no
 * later. What `items` then holds of a list means nothing, and `*count` is 0. Other eras that are no
 * history are not refused. Each item that is written then is one of an era's zone, between the start
 * of that era and that of the next one, and where the call looks for items. Others may be left out, and
 * those of a list may come in another order. Nothing else is written, and the call returns.
 */
uint32_t cron_c_history_fire_after(const cron_c_schedule *schedule,
                                   const cron_c_era *eras, size_t eras_length,
                                   int64_t instant, cron_c_item *item);
uint32_t cron_c_history_fire_by(const cron_c_schedule *schedule,
                                const cron_c_era *eras, size_t eras_length,
                                int64_t instant, cron_c_item *item);
uint32_t cron_c_history_fire_at(const cron_c_schedule *schedule,
                                const cron_c_era *eras, size_t eras_length,
                                int64_t instant, cron_c_item *item);
uint32_t cron_c_history_fires_between(const cron_c_schedule *schedule,
                                      const cron_c_era *eras, size_t eras_length,
                                      int64_t last, int64_t now,
                                      cron_c_item *items, size_t items_length, size_t *count);
uint32_t cron_c_history_fires_past(const cron_c_schedule *schedule,
                                   const cron_c_era *eras, size_t eras_length,
                                   const cron_c_item *item, int64_t now,
                                   cron_c_item *items, size_t items_length, size_t *count);

/*
 * The due fires of a history, by the clock that has at each instant the offset of the era which holds
 * it, and before the first era starts that of the first. Statuses are those of the calls over a zone.
 * Each call looks at all eras, and answers CRON_C_BAD_ZONE exactly where they are no history, or none.
 */
uint32_t cron_c_history_due_after(const cron_c_schedule *schedule,
                                  const cron_c_era *eras, size_t eras_length,
                                  int64_t instant, cron_c_item *item);
uint32_t cron_c_history_due_by(const cron_c_schedule *schedule,
                               const cron_c_era *eras, size_t eras_length,
                               int64_t instant, cron_c_item *item);
uint32_t cron_c_history_due_past(const cron_c_schedule *schedule,
                                 const cron_c_era *eras, size_t eras_length,
                                 cron_c_item *item);
uint32_t cron_c_history_dues_between(const cron_c_schedule *schedule,
                                     const cron_c_era *eras, size_t eras_length,
                                     int64_t last, int64_t now,
                                     cron_c_item *items, size_t items_length, size_t *count);
uint32_t cron_c_history_dues_past(const cron_c_schedule *schedule,
                                  const cron_c_era *eras, size_t eras_length,
                                  const cron_c_item *item, int64_t now,
                                  cron_c_item *items, size_t items_length, size_t *count);

/* A zone without a history, as the one era of it: what an era is initialized with. */
#define CRON_C_ERA_ALWAYS(zone) {INT64_MIN, zone}

/*
 * The calls by instants and by due fires over several schedules, which fire as one: an item is one of
 * any of them over the eras, a match is one of any of them, and each comes once, also where several
 * have it. Where a clock goes back or forth, and at the seams of eras, all is as with one schedule: in
 * a fold both items come, each at its instant, what a gap skips is no item, and each match is due once.
 * So are order and statuses, and what is said of eras that are no history. With one schedule the
 * answers over a history are those of `cron_c_history_fire_after` and its like. With none nothing fires.
 *
 * For a zone give one era, CRON_C_ERA_ALWAYS of it. An answer asks every schedule once. A list asks each
 * of them once more than it has items.
 */
uint32_t cron_c_union_fire_after(const cron_c_schedule *schedules, size_t schedules_length,
                                 const cron_c_era *eras, size_t eras_length,
                                 int64_t instant, cron_c_item *item);
uint32_t cron_c_union_fire_by(const cron_c_schedule *schedules, size_t schedules_length,
                              const cron_c_era *eras, size_t eras_length,
                              int64_t instant, cron_c_item *item);
uint32_t cron_c_union_fires_between(const cron_c_schedule *schedules, size_t schedules_length,
                                    const cron_c_era *eras, size_t eras_length,
                                    int64_t last, int64_t now,
                                    cron_c_item *items, size_t items_length, size_t *count);
uint32_t cron_c_union_fires_past(const cron_c_schedule *schedules, size_t schedules_length,
                                 const cron_c_era *eras, size_t eras_length,
                                 const cron_c_item *item, int64_t now,
                                 cron_c_item *items, size_t items_length, size_t *count);
uint32_t cron_c_union_due_after(const cron_c_schedule *schedules, size_t schedules_length,
                                const cron_c_era *eras, size_t eras_length,
                                int64_t instant, cron_c_item *item);
uint32_t cron_c_union_due_by(const cron_c_schedule *schedules, size_t schedules_length,
                             const cron_c_era *eras, size_t eras_length,
                             int64_t instant, cron_c_item *item);
uint32_t cron_c_union_due_past(const cron_c_schedule *schedules, size_t schedules_length,
                               const cron_c_era *eras, size_t eras_length,
                               cron_c_item *item);
uint32_t cron_c_union_dues_between(const cron_c_schedule *schedules, size_t schedules_length,
                                   const cron_c_era *eras, size_t eras_length,
                                   int64_t last, int64_t now,
                                   cron_c_item *items, size_t items_length, size_t *count);
uint32_t cron_c_union_dues_past(const cron_c_schedule *schedules, size_t schedules_length,
                                const cron_c_era *eras, size_t eras_length,
                                const cron_c_item *item, int64_t now,
                                cron_c_item *items, size_t items_length, size_t *count);

/* The rule of an entry where a clock changes. */
enum {
    CRON_C_NO_ENTRY = 0, /* There is no entry. */
    CRON_C_AS_SHOWN = 1, /* As `cron_c_union_fire_after`: a repeated time fires twice, a skipped one never. */
    CRON_C_ONCE = 2      /* As `cron_c_union_due_after`: each match fires once. */
};

/*
 * An entry of an agenda, an array of many: what fires by some schedules and some eras. Those of all entries
 * stand in two arrays, and an entry has so many of each, from a place on. So entries may share them.
 * `next` is the fire that comes next: let `cron_c_union_fire_after` or `cron_c_union_due_after` write it,
 * by the rule; after a restart list one item past the one that was noted. What `reserved` holds means
 * nothing yet: give 0. The last two numbers are the library's own. Memory of zeros has no entries.
 */
typedef struct cron_c_entry {
    size_t schedules_from;
    size_t schedules_length;
    size_t eras_from;
    size_t eras_length;
    cron_c_item next;
    uint32_t rule;
    uint32_t reserved;
    int64_t soonest_instant;
    size_t soonest_place;
} cron_c_entry;

/* When the first entry of an agenda with a place or more fires: INT64_MAX where none is left. */
static inline int64_t cron_c_agenda_instant(const cron_c_entry *entries)
{
    return entries[0].soonest_instant;
}

/*
 * Makes an agenda of an array: gives the last two numbers of each entry. Call it once, and again for a
 * longer array, in time that grows with the array. The other calls take about log2(n) steps.
 *
 * CRON_C_OK.
 */
uint32_t cron_c_agenda_begin(cron_c_entry *entries, size_t entries_length);

/*
 * Puts an entry at a place of an agenda, in the stead of what stands there: a new one where there is
 * none, another next fire, or, with the rule CRON_C_NO_ENTRY, none. What its last two numbers are
 * doesn't matter.
 *
 * CRON_C_OK; or CRON_C_NOT_AN_ITEM where the array has no such place.
 */
uint32_t cron_c_agenda_put(cron_c_entry *entries, size_t entries_length,
                           size_t place, const cron_c_entry *entry);

/*
 * Takes what fires next of all entries, if its instant is `now` or comes before it: writes the entry's
 * place to `*place` and the fire to `item`, and has the entry go on to its next fire. One that has none
 * gets the rule CRON_C_NO_ENTRY. Fires come by instant, those of one instant by place, and those of one
 * entry by the civil second that matches.
 *
 * CRON_C_OK; or CRON_C_NO_ITEM where no entry is due. Where the entry that comes first can't go on nothing
 * is taken, and `*place` tells which it is: CRON_C_BAD_ZONE where its eras are no history, as the calls
 * by its rule tell; CRON_C_NOT_AN_ITEM where it has schedules or eras past the end of the arrays, another
 * rule, or a `next` that the rule doesn't take. Put another entry there, or none.
 *
 * Give an agenda: what `cron_c_agenda_begin` made, and only these calls have written to. Of another array
 * any entry may be taken, whether it is due or not; or none, and then CRON_C_NOT_AN_ITEM may come with a
 * place that the array hasn't. Nothing else is written, and the call returns.
 */
uint32_t cron_c_agenda_next(const cron_c_schedule *schedules, size_t schedules_length,
                            const cron_c_era *eras, size_t eras_length,
                            cron_c_entry *entries, size_t entries_length,
                            int64_t now, size_t *place, cron_c_item *item);

/*
 * Writes to `item` the first item from the civil second on that a clock in the zone shows one second
 * after the instant; or, `cron_c_before`, the last one up to the civil second that it shows one
 * second before. Where the clock shows each second once, an item at the very instant is answered by
 * neither. For an instant with a part of a second give `cron_c_after` the second that has begun, and
 * `cron_c_before` the one after it.
 *
 * Where a clock goes back, it shows some time twice, mostly an hour, and a search from an instant in
 * it may leave out items after that instant, or answer the instant itself or one before it; and
 * `cron_c_before` so the other way round. In Chicago on 2022-11-06 `0 30 1 * * *`
 * after 06:30Z is not the second 01:30, at 07:30Z, but the next day's; and `59 59 1 * * *` after
 * 06:59:59Z is 06:59:59Z. So don't ask anew from an item's instant: `cron_c_next` goes on from the
 * item itself, and `cron_c_fire_after` asks by instants.
 *
 * CRON_C_OK, CRON_C_NO_ITEM, CRON_C_BAD_ZONE or CRON_C_BAD_INSTANT.
 */
uint32_t cron_c_after(const cron_c_schedule *schedule,
                      const cron_c_zone *zone,
                      int64_t instant, cron_c_item *item);
uint32_t cron_c_before(const cron_c_schedule *schedule,
                       const cron_c_zone *zone,
                       int64_t instant, cron_c_item *item);

/*
 * Puts the item after `*item`, or before it, in its place. Both items of a fold are told apart.
 *
 * CRON_C_OK, CRON_C_NO_ITEM, CRON_C_BAD_ZONE; or CRON_C_NOT_AN_ITEM where it is none of this
 * schedule in this zone.
 */
uint32_t cron_c_next(const cron_c_schedule *schedule,
                     const cron_c_zone *zone, cron_c_item *item);
uint32_t cron_c_prev(const cron_c_schedule *schedule,
                     const cron_c_zone *zone, cron_c_item *item);

/*
 * Writes to `items` the first items after the instant, in order; or, `cron_c_list_before`, the last
 * ones before it, in the opposite order: as many as fit, and fewer only where the timeline ends. The
 * instant is meant as by `cron_c_after` and `cron_c_before`, with what is said there of an hour that
 * comes twice: go on from the last item, and not with a list from its instant. `*count` tells how
 * many were written.
 *
 * CRON_C_OK, also where there is none; CRON_C_BAD_ZONE or CRON_C_BAD_INSTANT, and `*count` is then
 * 0.
 */
uint32_t cron_c_list_after(const cron_c_schedule *schedule,
                           const cron_c_zone *zone,
                           int64_t instant,
                           cron_c_item *items, size_t items_length, size_t *count);
uint32_t cron_c_list_before(const cron_c_schedule *schedule,
                            const cron_c_zone *zone,
                            int64_t instant,
                            cron_c_item *items, size_t items_length, size_t *count);

/*
 * The same from an item on: `cron_c_list_next` writes those after it, `cron_c_list_prev` those
 * before it. So pages lose nothing where a clock goes back. Copy the last item of a page first,
 * since `items` is written to.
 *
 * CRON_C_OK, also where there is none; CRON_C_BAD_ZONE; or CRON_C_NOT_AN_ITEM where the item is none
 * of this schedule in this zone. With the last two `*count` is 0.
 */
uint32_t cron_c_list_next(const cron_c_schedule *schedule,
                          const cron_c_zone *zone,
                          const cron_c_item *item,
                          cron_c_item *items, size_t items_length, size_t *count);
uint32_t cron_c_list_prev(const cron_c_schedule *schedule,
                          const cron_c_zone *zone,
                          const cron_c_item *item,
                          cron_c_item *items, size_t items_length, size_t *count);

/*
 * Writes the text of an item, as `2022-11-06 01:00:00 -05:00`, to `text`, as far as it fits, and its
 * whole length to `*text_needed`: 26, or 29 where the offset has seconds.
 *
 * CRON_C_OK; or CRON_C_NOT_AN_ITEM where the clock shows a year outside 1970 to 2100, the offset is
 * longer than 25:59:59, or `reserved` isn't 0, and `*text_needed` is then 0.
 */
uint32_t cron_c_format(const cron_c_item *item,
                       char *text, size_t text_length, size_t *text_needed);

/*
 * Writes the text of a due fire: that of what the clock shows at the due instant, and where that isn't
 * the nominal time also that time, as `2022-03-13 03:00:00 -05:00 for 02:30:00`, with its date where
 * that is another one. The whole length in `*text_needed` is at most CRON_C_DUE_TEXT.
 *
 * CRON_C_OK; or CRON_C_NOT_AN_ITEM as by `cron_c_dues_past`, and `*text_needed` is then 0.
 */
uint32_t cron_c_due_format(const cron_c_item *item,
                           char *text, size_t text_length, size_t *text_needed);

/*
 * Writes the canonical text of a schedule to `text`, as far as it fits, and its whole length to
 * `*text_needed`, at most CRON_C_SCHEDULE_TEXT: seven fields with one space between two, each a star or
 * its runs of numbers as `0-4,30`, with `L` last among the days of the month. `cron_c_parse` reads it
 * back to the same sets, and two schedules have one canonical text exactly where their sets are the
 * same. Of a crontab's expression that means two schedules each has its own.
 *
 * CRON_C_OK; or CRON_C_NOT_AN_ITEM where a unit has no ordinal, so that no text means the schedule,
 * and `*text_needed` is then 0.
 */
uint32_t cron_c_canonical(const cron_c_schedule *schedule,
                          char *text, size_t text_length, size_t *text_needed);

#ifdef __cplusplus
}
#endif

#endif
