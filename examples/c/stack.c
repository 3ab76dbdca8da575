/*
 * How many bytes of the stack each call uses, over texts, schedules, zones and instants of many kinds: no more than the
 * page for callers says. A call runs on a stack of its own that was filled before, and what it changed is counted.
 */
#define _GNU_SOURCE
#include "cron_c.h"
#include "pyongyang.h"

#include <stdio.h>
#include <stdlib.h>
#include <string.h>
#include <ucontext.h>

enum { STACK = 1 << 16, FILL = 0xa5, LISTED = 40, ENTRIES = 20, LEAST = 5000, MORE = 12000, MOST = 37000 };

static unsigned char stack[STACK] __attribute__((aligned(64)));
static ucontext_t caller;

/* What the calls are given. */
static const char *text;
static cron_c_schedule schedule, schedules[CRON_C_QUARTZ_SCHEDULES];
static cron_c_zone zone;
static cron_c_era eras[CRON_C_ERAS];
static size_t schedules_length, eras_length;
static int64_t start, end;

/* What they write. */
static cron_c_schedule read[CRON_C_QUARTZ_SCHEDULES];
static cron_c_zone stated;
static cron_c_era written[CRON_C_ERAS];
static cron_c_item item, items[LISTED];
static cron_c_entry entries[ENTRIES], entry;
static char message[CRON_C_MESSAGE(3000)];
static size_t count, needed, place;
static uint32_t kind;

#define TEXT text, strlen(text)
#define TOLD message, sizeof message, &needed
#define HERE &schedule, &zone
#define IN_ERAS &schedule, eras, eras_length
#define UNION schedules, schedules_length, eras, eras_length
#define LIST items, LISTED, &count

/* Each call, the most bytes that it may use, and its arguments. */
#define READERS(X) \
    X(parse, LEAST, TEXT, &schedule, TOLD) \
    X(crontab_parse, LEAST, TEXT, read, 2, &count, TOLD) \
    X(quartz_parse, MORE, TEXT, read, CRON_C_QUARTZ_SCHEDULES, &count, TOLD) \
    X(crontab_line_parse, LEAST, TEXT, 0, read, 2, &count, TOLD) \
    X(zone_parse, LEAST, TEXT, &stated) \
    X(zone_source, LEAST, "local", 5, TEXT, 1, &stated, &kind, TOLD) \
    X(history_read, MOST, PYONGYANG, sizeof PYONGYANG, written, CRON_C_ERAS, &count)

#define OTHERS(X) \
    X(fire_after, LEAST, HERE, start, &item) X(fire_by, LEAST, HERE, start, &item) X(fire_at, LEAST, HERE, start, &item) \
    X(fires_between, LEAST, HERE, start, end, LIST) X(fires_past, LEAST, HERE, &item, end, LIST) \
    X(due_after, LEAST, HERE, start, &item) X(due_by, LEAST, HERE, start, &item) X(due_past, LEAST, HERE, &item) \
    X(dues_between, LEAST, HERE, start, end, LIST) X(dues_past, LEAST, HERE, &item, end, LIST) \
    X(after, LEAST, HERE, start, &item) X(next, LEAST, HERE, &item) X(prev, LEAST, HERE, &item) X(before, LEAST, HERE, start, &item) \
    X(list_after, LEAST, HERE, start, LIST) X(list_next, LEAST, HERE, items, LIST) \
    X(list_before, LEAST, HERE, start, LIST) X(list_prev, LEAST, HERE, items, LIST) \
    X(history_check, LEAST, eras, eras_length) \
    X(history_fire_after, LEAST, IN_ERAS, start, &item) X(history_fire_by, LEAST, IN_ERAS, start, &item) \
    X(history_fire_at, LEAST, IN_ERAS, start, &item) X(history_fires_between, LEAST, IN_ERAS, start, end, LIST) \
    X(history_fires_past, LEAST, IN_ERAS, &item, end, LIST) X(history_due_after, LEAST, IN_ERAS, start, &item) \
    X(history_due_by, LEAST, IN_ERAS, start, &item) X(history_due_past, LEAST, IN_ERAS, &item) \
    X(history_dues_between, LEAST, IN_ERAS, start, end, LIST) X(history_dues_past, LEAST, IN_ERAS, &item, end, LIST) \
    X(union_fire_after, LEAST, UNION, start, &item) X(union_fire_by, LEAST, UNION, start, &item) \
    X(union_fires_between, LEAST, UNION, start, end, LIST) X(union_fires_past, LEAST, UNION, &item, end, LIST) \
    X(union_due_after, LEAST, UNION, start, &item) X(union_due_by, LEAST, UNION, start, &item) \
    X(union_due_past, LEAST, UNION, &item) X(union_dues_between, LEAST, UNION, start, end, LIST) \
    X(union_dues_past, LEAST, UNION, &item, end, LIST) \
    X(agenda_begin, LEAST, entries, ENTRIES) X(agenda_put, LEAST, entries, ENTRIES, ENTRIES / 2, &entry) \
    X(agenda_next, LEAST, UNION, entries, ENTRIES, end, &place, &item) \
    X(format, LEAST, &item, TOLD) X(due_format, LEAST, &item, TOLD) X(canonical, MORE, &schedule, TOLD)

#define DEFINED(name, most, ...) static void run_##name(void) { cron_c_##name(__VA_ARGS__); }
READERS(DEFINED)
OTHERS(DEFINED)
static void run_nothing(void) {}

struct call {
    const char *name;
    size_t most, used;
    void (*run)(void);
};
#define LISTED_CALL(name, most, ...) { "cron_c_" #name, most, 0, run_##name },
static struct call readers[] = { READERS(LISTED_CALL) }, others[] = { OTHERS(LISTED_CALL) };
static struct call nothing = { "nothing", 0, 0, run_nothing };

/* How many bytes from the top of the stack a call reaches down. */
static size_t bytes_used(void (*run)(void))
{
    ucontext_t callee;
    memset(stack, FILL, sizeof stack);
    getcontext(&callee);
    callee.uc_stack.ss_sp = stack;
    callee.uc_stack.ss_size = sizeof stack;
    callee.uc_link = &caller;
    makecontext(&callee, run, 0);
    swapcontext(&caller, &callee);
    size_t at = 0;
    while (at < sizeof stack && stack[at] == FILL) {
        at++;
    }
    return sizeof stack - at;
}

static void measure(struct call *calls, size_t length)
{
    for (struct call *call = calls; call < calls + length; call++) {
        size_t used = bytes_used(call->run);
        used -= used < nothing.used ? used : nothing.used;
        call->used = used > call->used ? used : call->used;
    }
}
#define MEASURE(calls) measure(calls, sizeof calls / sizeof *calls)

/* Tells what the calls used at most. Returns how many used more than they may. */
static int tell(const struct call *calls, size_t length)
{
    int over = 0;
    for (const struct call *call = calls; call < calls + length; call++) {
        printf("%s | %zu\n", call->name, call->used);
        over += call->used > call->most;
    }
    return over;
}

/* An agenda whose entries have all schedules and eras, by both rules in turn. */
static void make_agenda(void)
{
    for (size_t at = 0; at < ENTRIES; at++) {
        const cron_c_entry made = { 0, schedules_length, 0, eras_length, { start, eras[eras_length - 1].zone.offset, 0 }, 1 + at % 2, 0, 0, 0 };
        entries[at] = entry = made;
    }
    cron_c_agenda_begin(entries, ENTRIES);
}

/* The calls over a schedule, and over several, in a zone, and in eras of which it is the last. */
static void measure_over(const char *own, const char *quartz, const char *rule)
{
    static const int64_t starts[] = { CRON_C_LEAST_INSTANT, -1, 126689400, 1520748000, 1541310000, 4133980799, CRON_C_GREATEST_INSTANT };
    cron_c_parse(own, strlen(own), &schedule, CRON_C_NO_TEXT, &needed);
    cron_c_quartz_parse(quartz, strlen(quartz), schedules, CRON_C_QUARTZ_SCHEDULES, &schedules_length, CRON_C_NO_TEXT, &needed);
    cron_c_zone_parse(rule, strlen(rule), &zone);
    for (size_t history = 0; history < 2; history++) {
        eras_length = 0;
        if (history) {
            cron_c_history_read(PYONGYANG, sizeof PYONGYANG, eras, CRON_C_ERAS, &eras_length);
        }
        eras[eras_length].starts = eras_length ? 1500000000 : INT64_MIN;
        eras[eras_length++].zone = zone;
        for (size_t at = 0; at < sizeof starts / sizeof *starts; at++) {
            start = starts[at];
            end = start < CRON_C_GREATEST_INSTANT - 864000 ? start + 864000 : CRON_C_GREATEST_INSTANT;
            make_agenda();
            MEASURE(others);
        }
    }
}

int main(void)
{
    static char long_text[1200];
    static const char *const texts[] = {
        "", "@daily", "* * * * * *", "0 30 9,12,15 1,15 May-Aug Mon,Wed,Fri 2018/2", "60 * * * * *", "0 0 0 32 * *", "* * * x * *", "0 0 0 L * *",
        "30 9 * * mon-fri", "0 0 13 * fri", "1-3/2,5,7-59/9 */2 1,2 jan-dec sun", "60 * * * *", "* * * *", "* * * * * *", "0\n9 * * *",
        "30 9 13 * fri /bin/backup --all%its input", "@reboot root a", "A='b'", "CRON_TZ=UTC", "0 9 * * * a\n0 9 * * * b", "99999999999 * * * * a",
        "0 0 12 L-3 * ?", "0 0 12 ? * 6#3", "0 0 12 LW * ?", "0 0 12 15W * ?", "0 0 12 ? * 6L 2018/2", "0 0 0 L-28W * ?", "0 0 0 ? * MON-FRI/2",
        "UTC", "CST6CDT,M3.2.0,M11.1.0", "<-03>3<-02>,M3.5.0/-2,M10.5.0/-1", ":America/Chicago", "EST5EDT,0/0,J365/25", "\xff", long_text,
    };
    static const char *const owns[] = { "* * * * * *", "0 30 1 * * *", "59 59 23 31 Dec * 2100", "0 0 0 30 2 *", "0 0 0 29 2 Sun" };
    static const char *const quartzes[] = { "0 0 12 ? * 6#3", "0 30 1,2 LW * ?", "0 * * L-3 * ? 2018/2", "* * * ? * 2-6" };
    static const char *const rules[] = { "UTC", "CST6CDT,M3.2.0,M11.1.0", "EST5EDT,0/0,J365/25", "AAA11BBB,169,M6.3.3", "<+14>-14" };
    memset(long_text, '*', sizeof long_text - 1);
    nothing.used = bytes_used(nothing.run);
    for (size_t at = 0; at < sizeof texts / sizeof *texts; at++) {
        text = texts[at];
        MEASURE(readers);
    }
    for (size_t own = 0; own < sizeof owns / sizeof *owns; own++) {
        for (size_t quartz = 0; quartz < sizeof quartzes / sizeof *quartzes; quartz++) {
            for (size_t rule = 0; rule < sizeof rules / sizeof *rules; rule++) {
                measure_over(owns[own], quartzes[quartz], rules[rule]);
            }
        }
    }
    const int over = tell(readers, sizeof readers / sizeof *readers) + tell(others, sizeof others / sizeof *others);
    if (over) {
        fprintf(stderr, "%d calls use more of the stack than the page for callers says\n", over);
    }
    return over != 0;
}
