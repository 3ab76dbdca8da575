/* The first three items of an expression, and why another is refused. */
#include "cron_c.h"

#include <stdio.h>
#include <string.h>

/* Reads a text, and prints the message where it is refused. */
static int parse(const char *text, cron_c_schedule *schedule)
{
    char message[256];
    size_t needed;
    uint32_t status = cron_c_parse(text, strlen(text), schedule,
                                 message, sizeof message, &needed);
    if (status == CRON_C_REFUSED) {
        size_t shown = needed < sizeof message ? needed : sizeof message;
        printf("error: %.*s\n", (int)shown, message);
    }
    return status == CRON_C_OK;
}

/* Prints an item that a call gave, which always has a text. */
static void print(const cron_c_item *item)
{
    char text[CRON_C_ITEM_TEXT];
    size_t length;
    if (cron_c_format(item, text, sizeof text, &length) == CRON_C_OK) {
        printf("%.*s\n", (int)length, text);
    }
}

int main(void)
{
    const cron_c_zone zone = CRON_C_ZONE_UTC;
    const int64_t start = 1704067200; /* 2024-01-01T00:00:00Z */
    cron_c_schedule schedule;
    cron_c_item item;

    if (!parse("0 0,30 9 * * 2", &schedule)) {
        return 1;
    }
    uint32_t status = cron_c_after(&schedule, &zone, start, &item);
    for (int left = 3; left > 0 && status == CRON_C_OK; left--) {
        print(&item);
        status = cron_c_next(&schedule, &zone, &item);
    }
    if (status != CRON_C_OK && status != CRON_C_NO_ITEM) {
        return 1;
    }
    return parse("0 0 25 * * *", &schedule);
}
