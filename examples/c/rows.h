/* What the programs of rows share: each counts the rows that hold, and fails at the first that doesn't. */
#ifndef ROWS_H
#define ROWS_H

#include "cron_c.h"

#include <stdio.h>
#include <stdlib.h>
#include <string.h>

static int held;

static inline void check(int is, const char *what, const char *file, int line)
{
    if (!is) {
        printf("%s:%d: %s doesn't hold\n", file, line, what);
        exit(1);
    }
    held++;
}

#define CHECK(what) check((what), #what, __FILE__, __LINE__)

/* Tells how many rows held. */
static inline void tell_held(const char *rows)
{
    printf("examples: %d rows of %s hold\n", held, rows);
}

/* Replays each line of a file that isn't a comment. */
static inline void replay_file(const char *path, void (*replay)(char *line))
{
    char line[4000];
    FILE *file = fopen(path, "rb");
    CHECK(file != NULL);
    while (fgets(line, sizeof line, file)) {
        char *end = strchr(line, '\n');
        CHECK(end != NULL);
        *end = 0;
        if (strncmp(line, "# ", 2) != 0) {
            replay(line);
        }
    }
    CHECK(fclose(file) == 0);
}

#define CHICAGO "CST6CDT,M3.2.0,M11.1.0"

/* The zone of a text, or one of no kind. */
static inline const cron_c_zone *named(const char *text)
{
    static cron_c_zone zone;
    zone.kind = 9;
    cron_c_zone_parse(text, strlen(text), &zone);
    return &zone;
}

/* Reads a text that is accepted. */
static inline cron_c_schedule parsed(const char *text)
{
    cron_c_schedule schedule;
    char message[1];
    size_t needed = 1;
    memset(&schedule, 0, sizeof schedule);
    CHECK(cron_c_parse(text, strlen(text), &schedule, message, sizeof message, &needed) == CRON_C_OK);
    CHECK(needed == 0);
    return schedule;
}

/* Whether the text of the item is this. */
static inline int shows(const cron_c_item *item, const char *text)
{
    char shown[CRON_C_ITEM_TEXT];
    size_t length = 0;
    return cron_c_format(item, shown, sizeof shown, &length) == CRON_C_OK && length == strlen(text) &&
           memcmp(shown, text, length) == 0;
}

#endif
