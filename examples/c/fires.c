/* What a scheduler asks for: the fires of a job where the clock goes back, and which was the last. */
#include "cron_c.h"

#include <stdio.h>
#include <string.h>

/* Prints an item that a call gave, which always has a text. */
static void print(const char *before, const cron_c_item *item)
{
    char text[CRON_C_ITEM_TEXT];
    size_t length;
    if (cron_c_format(item, text, sizeof text, &length) == CRON_C_OK) {
        printf("%s%.*s\n", before, (int)length, text);
    }
}

int main(void)
{
    const char *text = "0 30 1 * * *";
    const char *chicago = "CST6CDT,M3.2.0,M11.1.0";
    int64_t now = 1667649600;            /* 2022-11-05T12:00:00Z */
    const int64_t restarted = 1667779200; /* 2022-11-07T00:00:00Z */
    cron_c_schedule schedule;
    cron_c_zone zone;
    cron_c_item item;
    char message[256];
    size_t needed;

    if (cron_c_parse(text, strlen(text), &schedule, message, sizeof message, &needed) != CRON_C_OK ||
        cron_c_zone_parse(chicago, strlen(chicago), &zone) != CRON_C_OK) {
        return 1;
    }
    for (int left = 3; left > 0; left--) {
        const uint32_t status = cron_c_fire_after(&schedule, &zone, now, &item);
        if (status == CRON_C_NO_ITEM) {
            break; /* it fires no more */
        }
        if (status != CRON_C_OK) {
            return 1;
        }
        print("", &item); /* sleep until `item.instant`, and run the job */
        now = item.instant;
    }
    const uint32_t status = cron_c_fire_by(&schedule, &zone, restarted, &item);
    if (status == CRON_C_OK) {
        print("last: ", &item);
    }
    return status != CRON_C_OK && status != CRON_C_NO_ITEM;
}
