/* What a nightly job asks for that must run once a night, also where the clock changes. */
#include "cron_c.h"

#include <stdio.h>
#include <string.h>

/* Prints a due fire that a call gave, which always has a text. */
static void print(const char *before, const cron_c_item *item)
{
    char text[CRON_C_DUE_TEXT];
    size_t length;
    if (cron_c_due_format(item, text, sizeof text, &length) == CRON_C_OK) {
        printf("%s%.*s\n", before, (int)length, text);
    }
}

/* The nights of a job from an instant on. */
static uint32_t nights(const char *text, const cron_c_zone *zone, int64_t now, int left)
{
    cron_c_schedule schedule;
    cron_c_item item;
    size_t needed;
    uint32_t status = cron_c_parse(text, strlen(text), &schedule, CRON_C_NO_TEXT, &needed);
    if (status == CRON_C_OK) {
        status = cron_c_due_after(&schedule, zone, now, &item);
    }
    for (; left > 0 && status == CRON_C_OK; left--) {
        print("", &item); /* sleep until `item.instant`, run the job, and note `item` */
        status = cron_c_due_past(&schedule, zone, &item); /* from the item, never from its instant */
    }
    if (status == CRON_C_OK && cron_c_due_by(&schedule, zone, now + 3 * 86400, &item) == CRON_C_OK) {
        print("last: ", &item);
    }
    return status;
}

int main(void)
{
    const char *chicago = "CST6CDT,M3.2.0,M11.1.0";
    const int64_t march = 1647086400;    /* 2022-03-12T12:00:00Z, the day before the clock skips 02:00 to 03:00 */
    const int64_t november = 1667649600; /* 2022-11-05T12:00:00Z, the day before it repeats 01:00 to 02:00 */
    cron_c_zone zone;
    return cron_c_zone_parse(chicago, strlen(chicago), &zone) != CRON_C_OK ||
           nights("0 30 2 * * *", &zone, march, 2) != CRON_C_OK ||
           nights("0 30 1 * * *", &zone, november, 2) != CRON_C_OK;
}
