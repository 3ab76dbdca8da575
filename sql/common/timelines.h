/* When an expression fires in a zone: one fire by an instant, and lists of them in pages. */
#ifndef TIMELINES_H
#define TIMELINES_H

#include "cron_c.h"

#include <stdbool.h>

/* Schedules that fire as one, the eras of a zone, and a rule at clock changes. It owns none of them. */
typedef struct timeline {
    const cron_c_schedule *schedules;
    size_t count;
    const cron_c_era *eras;
    size_t eras_length;
    uint32_t rule;
} timeline;

/* An instant that the calls take: nothing fires beyond the least and the greatest. */
static inline int64_t within_instants(int64_t instant)
{
    if (instant < CRON_C_LEAST_INSTANT) {
        return CRON_C_LEAST_INSTANT;
    }
    return instant > CRON_C_GREATEST_INSTANT ? CRON_C_GREATEST_INSTANT : instant;
}

/*
 * The first fire after an instant, and the last one by it. Each answers what a call of the library over all eras does, and looks
 * at few of them. CRON_C_OK, CRON_C_NO_ITEM, or what says that the eras are none.
 */
uint32_t fire_after(const timeline *line, int64_t instant, cron_c_item *item);
uint32_t fire_by(const timeline *line, int64_t instant, cron_c_item *item);

/* So many fires are listed at once. The first page is short, since few may be asked for. */
enum { FIRST_PAGE = 8, PAGE = 64 };

/* A list of fires that goes on as it is asked. */
typedef struct listing {
    timeline line;
    int64_t end;
    bool is_last; /* no page follows */
    size_t count, place;
    cron_c_item page[PAGE];
} listing;

/* Begins the list of the fires after one instant and up to and with another. */
uint32_t begin_listing(listing *list, int64_t start, int64_t end);

/* The next fire of a list: CRON_C_OK, CRON_C_NO_ITEM at its end, or what a call answered. */
uint32_t next_listed(listing *list, cron_c_item *item);

#endif
