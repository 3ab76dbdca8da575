/*
 * Many jobs: what fires next of all of them, while jobs come and go. The clock here is a list of instants at
 * which a program wakes; a program of its own sleeps until `cron_c_agenda_instant`.
 */
#include "cron_c.h"

#include <stdio.h>
#include <string.h>

/* Room for so many jobs, of which there are none yet, and for what they share: schedules and zones. */
enum { JOBS = 10000, SCHEDULES = 4, ZONES = 2 };
static cron_c_entry jobs[JOBS];
static cron_c_schedule schedules[SCHEDULES];
static cron_c_era zones[ZONES];

/* Adds a job with so many schedules in a zone: its fires after an instant. Whether it fires at all. */
static int add(size_t place, size_t schedules_from, size_t schedules_length, size_t zone, uint32_t rule, int64_t now)
{
    cron_c_entry job = {schedules_from, schedules_length, zone, 1, {0, 0, 0}, rule, 0, 0, 0};
    const uint32_t status =
        (rule == CRON_C_ONCE ? cron_c_union_due_after : cron_c_union_fire_after)(
            schedules + schedules_from, schedules_length, zones + zone, 1, now, &job.next);
    return status == CRON_C_OK && cron_c_agenda_put(jobs, JOBS, place, &job) == CRON_C_OK;
}

/* Removes the job at a place. */
static void remove_job(size_t place)
{
    static const cron_c_entry none; /* of the rule CRON_C_NO_ENTRY */
    cron_c_agenda_put(jobs, JOBS, place, &none);
}

/* Runs what is due at an instant. */
static int run(int64_t now)
{
    cron_c_item item;
    size_t place;
    uint32_t status;
    while ((status = cron_c_agenda_next(schedules, SCHEDULES, zones, ZONES, jobs, JOBS, now, &place, &item)) == CRON_C_OK) {
        char text[CRON_C_DUE_TEXT];
        size_t length;
        if (cron_c_due_format(&item, text, sizeof text, &length) == CRON_C_OK) {
            printf("job %zu: %.*s\n", place, (int)length, text);
        }
    }
    return status == CRON_C_NO_ITEM;
}

int main(void)
{
    const int64_t start = 1647129600; /* 2022-03-13T00:00:00Z, a day on which Chicago's clock goes from 02:00 to 03:00 */
    cron_c_zone chicago;
    const cron_c_zone utc = CRON_C_ZONE_UTC;
    size_t needed, count;
    if (cron_c_zone_parse(CRON_C_TEXT("CST6CDT,M3.2.0,M11.1.0"), &chicago) != CRON_C_OK ||
        cron_c_crontab_parse(CRON_C_TEXT("0 12 13 * fri"), schedules, 2, &count, CRON_C_NO_TEXT, &needed) != CRON_C_OK || count != 2 ||
        cron_c_crontab_parse(CRON_C_TEXT("30 2 * * *"), schedules + 2, 1, &count, CRON_C_NO_TEXT, &needed) != CRON_C_OK ||
        cron_c_parse(CRON_C_TEXT("0 0 8 * * *"), schedules + 3, CRON_C_NO_TEXT, &needed) != CRON_C_OK) {
        return 1;
    }
    zones[0] = (cron_c_era)CRON_C_ERA_ALWAYS(utc);
    zones[1] = (cron_c_era)CRON_C_ERA_ALWAYS(chicago);
    cron_c_agenda_begin(jobs, JOBS);
    if (!add(0, 0, 2, 1, CRON_C_AS_SHOWN, start) || !add(7, 2, 1, 1, CRON_C_ONCE, start) || !add(9999, 3, 1, 0, CRON_C_AS_SHOWN, start)) {
        return 1;
    }
    printf("sleep until %lld\n", (long long)cron_c_agenda_instant(jobs));
    if (!run(start + 86400)) {
        return 1;
    }
    remove_job(9999);
    if (!add(8, 2, 1, 1, CRON_C_AS_SHOWN, start)) {
        return 1;
    }
    printf("sleep until %lld\n", (long long)cron_c_agenda_instant(jobs));
    return !run(start + 7 * 86400);
}
