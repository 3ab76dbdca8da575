/*
 * The zone of a name: the bytes of its file become eras, over which a scheduler asks for its fires. The
 * argument is `UTC`, a rule, a name as America/Chicago, or `local`, which is what TZ says; without one it
 * is Asia/Pyongyang, whose clock went back half an hour in 2015, and ahead again in 2018.
 */
#include "cron_c.h"
#include "pyongyang.h"

#include <errno.h>
#include <stdio.h>
#include <stdlib.h>
#include <string.h>

static const char FOLDER[] = "/usr/share/zoneinfo/", MACHINE[] = "/etc/localtime";

static uint8_t bytes[65536];
static cron_c_era eras[CRON_C_ERAS];

/* Prints an item that a call gave, which always has a text. */
static void print(const cron_c_item *item)
{
    char text[CRON_C_ITEM_TEXT];
    size_t length;
    if (cron_c_format(item, text, sizeof text, &length) == CRON_C_OK) {
        printf("%.*s\n", (int)length, text);
    }
}

/* Reads the eras that the file at a path has. */
static uint32_t read_file(const char *path, size_t *count)
{
    errno = 0;
    FILE *file = fopen(path, "rb");
    if (file == NULL) {
        return CRON_C_BAD_ZONE;
    }
    const size_t length = fread(bytes, 1, sizeof bytes, file);
    const int whole = fgetc(file) == EOF && !ferror(file); /* no zone file is longer */
    fclose(file);
    return whole ? cron_c_history_read(bytes, length, eras, CRON_C_ERAS, count) : CRON_C_BAD_ZONE;
}

/* One era, which is always that of the zone. */
static uint32_t always(cron_c_zone zone, size_t *count)
{
    eras[0] = (cron_c_era)CRON_C_ERA_ALWAYS(zone);
    *count = 1;
    return CRON_C_OK;
}

/* The machine's own zone, UTC where it has no file. */
static uint32_t of_machine(size_t *count)
{
    const uint32_t status = read_file(MACHINE, count);
    return status != CRON_C_OK && errno == ENOENT ? always((cron_c_zone)CRON_C_ZONE_UTC, count) : status;
}

/* Reads the eras of the zone that a text names. */
static uint32_t read_zone(const char *text, size_t *count)
{
    char path[sizeof FOLDER + 4096];
    char *name = path + sizeof FOLDER - 1;
    const char *tz = getenv("TZ");
    cron_c_zone zone;
    uint32_t place;
    size_t needed;
    const uint32_t status = cron_c_zone_source(text, strlen(text), tz ? tz : "", tz ? strlen(tz) : 0, tz != NULL,
                                               &zone, &place, name, 4096, &needed);
    if (status != CRON_C_OK || needed > 4096) {
        return CRON_C_BAD_ZONE;
    }
    name[needed] = 0;
    switch (place) {
    case CRON_C_ZONE_STATED: return always(zone, count);
    case CRON_C_ZONE_IN_FOLDER: return read_file(memcpy(path, FOLDER, sizeof FOLDER - 1), count);
    case CRON_C_ZONE_AT_PATH: return read_file(name, count);
    default: return of_machine(count);
    }
}

/* Prints the first fires after an instant. */
static int fires(const cron_c_schedule *schedule, size_t count, int64_t now, int left)
{
    cron_c_item item;
    for (; left > 0; left--) {
        const uint32_t status = cron_c_history_fire_after(schedule, eras, count, now, &item);
        if (status == CRON_C_NO_ITEM) {
            break; /* it fires no more */
        }
        if (status != CRON_C_OK) {
            return 1;
        }
        print(&item);
        now = item.instant;
    }
    return 0;
}

int main(int words, char **word)
{
    cron_c_schedule schedule;
    size_t needed, count;

    if (cron_c_parse(CRON_C_TEXT("0 45 23 * * *"), &schedule, CRON_C_NO_TEXT, &needed) != CRON_C_OK) {
        return 1;
    }
    const uint32_t status = words > 1 ? read_zone(word[1], &count)
                                      : cron_c_history_read(PYONGYANG, sizeof PYONGYANG, eras, CRON_C_ERAS, &count);
    if (status != CRON_C_OK) {
        printf("%s\n", cron_c_status_text(status));
        return 1;
    }
    return fires(&schedule, count, 1439424000, 4) || /* 2015-08-13T00:00:00Z */
           fires(&schedule, count, 1525305600, 2);   /* 2018-05-03T00:00:00Z */
}
