/* What calls cost from C: the least of many turns, in nanoseconds a call. */
#define _POSIX_C_SOURCE 199309L
#include "cron_c.h"
#include "pyongyang.h"

#include <stdio.h>
#include <string.h>
#include <time.h>

static double nanoseconds(void)
{
    struct timespec now;
    clock_gettime(CLOCK_MONOTONIC, &now);
    return (double)now.tv_sec * 1e9 + (double)now.tv_nsec;
}

static double cost_of_parse(const char *text, cron_c_schedule *schedule)
{
    char message[64];
    size_t needed;
    double least = 1e300;
    for (int turn = 0; turn < 200; turn++) {
        double begun = nanoseconds();
        for (int call = 0; call < 100; call++) {
            cron_c_parse(text, strlen(text), schedule, message, sizeof message, &needed);
        }
        double each = (nanoseconds() - begun) / 100;
        least = each < least ? each : least;
    }
    return least;
}

typedef uint32_t by_instant(const cron_c_schedule *, const cron_c_zone *, int64_t, cron_c_item *);

/* A fresh search by an instant. */
static double cost_of_search(by_instant *call, const cron_c_schedule *schedule, const cron_c_zone *zone)
{
    const int64_t start = 1514764800; /* 2018-01-01T00:00:00Z */
    cron_c_item item;
    double least = 1e300;
    for (int turn = 0; turn < 150; turn++) {
        double begun = nanoseconds();
        for (int calls = 0; calls < 1000; calls++) {
            call(schedule, zone, start, &item);
        }
        double each = (nanoseconds() - begun) / 1000;
        least = each < least ? each : least;
    }
    return least;
}

/* A step from an item, which begins anew where the timeline ends. */
static double cost_of_steps(const cron_c_schedule *schedule, const cron_c_zone *zone)
{
    const int64_t start = 1514764800;
    cron_c_item item;
    double least = 1e300;
    for (int turn = 0; turn < 150; turn++) {
        cron_c_after(schedule, zone, start, &item);
        double begun = nanoseconds();
        for (int calls = 0; calls < 1000; calls++) {
            if (cron_c_next(schedule, zone, &item) != CRON_C_OK) {
                cron_c_after(schedule, zone, start, &item);
            }
        }
        double each = (nanoseconds() - begun) / 1000;
        least = each < least ? each : least;
    }
    return least;
}

enum { ERAS = 237 };

/* As many eras as the zone's file of Chicago has: two transitions a year up to autumn 2007, and then its rule. */
static void make_eras(cron_c_era *eras, const cron_c_zone *rule)
{
    for (int place = 0; place < ERAS; place++) {
        cron_c_zone fixed = CRON_C_ZONE_FIXED(place % 2 ? -5 * 3600 : -6 * 3600);
        eras[place].starts = INT64_C(1194159600) - (int64_t)(ERAS - 1 - place) * 15778800;
        eras[place].zone = fixed;
    }
    eras[ERAS - 1].zone = *rule;
}

/* The same over the last eras of a history. */
static double cost_of_history(const cron_c_schedule *schedule, const cron_c_era *eras, size_t length)
{
    const int64_t start = 1514764800;
    cron_c_item item;
    double least = 1e300;
    for (int turn = 0; turn < 150; turn++) {
        double begun = nanoseconds();
        for (int calls = 0; calls < 1000; calls++) {
            cron_c_history_fire_after(schedule, eras + ERAS - length, length, start, &item);
        }
        double each = (nanoseconds() - begun) / 1000;
        least = each < least ? each : least;
    }
    return least;
}

typedef uint32_t by_instant_of_all(const cron_c_schedule *, size_t, const cron_c_era *, size_t, int64_t, cron_c_item *);

/* The same of the schedules that an expression of a crontab means, in one zone. */
static double cost_of_union(by_instant_of_all *call, const char *text, const cron_c_zone *zone)
{
    const int64_t start = 1514764800;
    const cron_c_era always = CRON_C_ERA_ALWAYS(*zone);
    cron_c_schedule schedules[2];
    size_t length, needed;
    cron_c_item item;
    double least = 1e300;
    cron_c_crontab_parse(text, strlen(text), schedules, 2, &length, CRON_C_NO_TEXT, &needed);
    for (int turn = 0; turn < 150; turn++) {
        double begun = nanoseconds();
        for (int calls = 0; calls < 1000; calls++) {
            call(schedules, length, &always, 1, start, &item);
        }
        double each = (nanoseconds() - begun) / 1000;
        least = each < least ? each : least;
    }
    return least;
}

enum { LISTED = 1000 };

/* An item of a list, in a zone where there are no eras, and else over the last eras of a history. */
static double cost_of_list(const cron_c_schedule *schedule, const cron_c_zone *zone, const cron_c_era *eras, size_t length, int64_t start)
{
    static cron_c_item items[LISTED];
    size_t count = 0;
    double least = 1e300;
    for (int turn = 0; turn < 150; turn++) {
        double begun = nanoseconds();
        if (length == 0) {
            cron_c_fires_between(schedule, zone, start, CRON_C_GREATEST_INSTANT, items, LISTED, &count);
        } else {
            cron_c_history_fires_between(schedule, eras + ERAS - length, length, start, CRON_C_GREATEST_INSTANT, items, LISTED, &count);
        }
        double each = (nanoseconds() - begun) / (double)(count == 0 ? 1 : count);
        least = each < least ? each : least;
    }
    return least;
}

/* The eras of a zone's file. */
static double cost_of_reading(void)
{
    static cron_c_era eras[CRON_C_ERAS];
    size_t count;
    double least = 1e300;
    for (int turn = 0; turn < 200; turn++) {
        double begun = nanoseconds();
        for (int call = 0; call < 100; call++) {
            cron_c_history_read(PYONGYANG, sizeof PYONGYANG, eras, CRON_C_ERAS, &count);
        }
        double each = (nanoseconds() - begun) / 100;
        least = each < least ? each : least;
    }
    return least;
}

int main(void)
{
    const char *const texts[] = {"0 30 9,12,15 1,15 May-Aug Mon,Wed,Fri 2018/2", "* * * * * *", "0 0 0 * * *"};
    const char *const zones[] = {"UTC", "CST6CDT,M3.2.0,M11.1.0"};
    for (size_t text = 0; text < sizeof texts / sizeof *texts; text++) {
        cron_c_schedule schedule;
        printf("cron_c_parse | %s | %.1f\n", texts[text], cost_of_parse(texts[text], &schedule));
        for (size_t zone = 0; zone < sizeof zones / sizeof *zones; zone++) {
            cron_c_zone prepared;
            cron_c_zone_parse(zones[zone], strlen(zones[zone]), &prepared);
            const cron_c_zone *in = &prepared;
            printf("cron_c_fire_after | %s | %s | %.1f\n", zones[zone], texts[text], cost_of_search(cron_c_fire_after, &schedule, in));
            printf("cron_c_fire_by | %s | %s | %.1f\n", zones[zone], texts[text], cost_of_search(cron_c_fire_by, &schedule, in));
            printf("cron_c_due_after | %s | %s | %.1f\n", zones[zone], texts[text], cost_of_search(cron_c_due_after, &schedule, in));
            printf("cron_c_due_by | %s | %s | %.1f\n", zones[zone], texts[text], cost_of_search(cron_c_due_by, &schedule, in));
            printf("cron_c_after | %s | %s | %.1f\n", zones[zone], texts[text], cost_of_search(cron_c_after, &schedule, in));
            printf("cron_c_next | %s | %s | %.1f\n", zones[zone], texts[text], cost_of_steps(&schedule, in));
        }
        cron_c_zone rule;
        cron_c_era eras[ERAS];
        cron_c_zone_parse(zones[1], strlen(zones[1]), &rule);
        make_eras(eras, &rule);
        printf("cron_c_history_fire_after | the last era | %s | %.1f\n", texts[text], cost_of_history(&schedule, eras, 1));
        printf("cron_c_history_fire_after | %d eras | %s | %.1f\n", ERAS, texts[text], cost_of_history(&schedule, eras, ERAS));
        const int64_t starts[] = {1514764800, 0}; /* 2018-01-01T00:00:00Z, and 1970-01-01T00:00:00Z */
        for (size_t start = 0; start < sizeof starts / sizeof *starts; start++) {
            const double rule_list = cost_of_list(&schedule, &rule, eras, 0, starts[start]);
            const double eras_list = cost_of_list(&schedule, &rule, eras, ERAS, starts[start]);
            printf("cron_c_fires_between | from %lld, over the rule | %s | %.1f\n", (long long)starts[start], texts[text], rule_list);
            printf("cron_c_history_fires_between | from %lld, %d eras | %s | %.1f\n", (long long)starts[start], ERAS, texts[text], eras_list);
        }
    }
    for (size_t at = 0; at < sizeof zones / sizeof *zones; at++) {
        static const char *const crontabs[] = {"0 0 13 * fri", "30 9 * * mon-fri"};
        cron_c_zone in;
        cron_c_zone_parse(zones[at], strlen(zones[at]), &in);
        for (size_t text = 0; text < sizeof crontabs / sizeof *crontabs; text++) {
            printf("cron_c_union_fire_after | %s | %s | %.1f\n", zones[at], crontabs[text], cost_of_union(cron_c_union_fire_after, crontabs[text], &in));
            printf("cron_c_union_due_after | %s | %s | %.1f\n", zones[at], crontabs[text], cost_of_union(cron_c_union_due_after, crontabs[text], &in));
        }
    }
    printf("cron_c_history_read | %zu bytes | %.1f\n", sizeof PYONGYANG, cost_of_reading());
    return 0;
}
