/*
 * Calls over a stretch of a zone's eras. A call by due fires looks at all eras that it is given, of which a zone has hundreds, so
 * it is given those about the instant, and others only where the answer may lie among them.
 */
#include "timelines.h"

/*
 * So far before an instant a stretch begins. An offset is less than 26 hours. So what a clock showed before the stretch lies
 * days before what it shows at the instant, and doesn't tell whether a match is due after it. The same holds of an answer that
 * lies so far behind the front of a stretch.
 */
enum { MARGIN = 4 * 86400, STRETCH = 8 };

/* Where the era stands that holds an instant: the first one holds each that comes before all others. */
static size_t era_at(const timeline *line, int64_t instant)
{
    size_t low = 0, high = line->eras_length;
    while (high - low > 1) {
        const size_t middle = low + (high - low) / 2;
        if (line->eras[middle].starts <= instant) {
            low = middle;
        } else {
            high = middle;
        }
    }
    return low;
}

static uint32_t ask_after(const timeline *line, size_t from, size_t length, int64_t instant, cron_c_item *item)
{
    if (line->rule == CRON_C_ONCE) {
        return cron_c_union_due_after(line->schedules, line->count, line->eras + from, length, instant, item);
    }
    return cron_c_union_fire_after(line->schedules, line->count, line->eras + from, length, instant, item);
}

static uint32_t ask_by(const timeline *line, size_t from, size_t length, int64_t instant, cron_c_item *item)
{
    if (line->rule == CRON_C_ONCE) {
        return cron_c_union_due_by(line->schedules, line->count, line->eras + from, length, instant, item);
    }
    return cron_c_union_fire_by(line->schedules, line->count, line->eras + from, length, instant, item);
}

uint32_t fire_after(const timeline *line, int64_t instant, cron_c_item *item)
{
    instant = within_instants(instant);
    const size_t from = era_at(line, instant - MARGIN), left = line->eras_length - from;
    if (left <= STRETCH) {
        return ask_after(line, from, left, instant, item);
    }
    const uint32_t status = ask_after(line, from, STRETCH, instant, item);
    const bool is_open = status == CRON_C_NO_ITEM || (status == CRON_C_OK && item->instant >= line->eras[from + STRETCH].starts);
    return is_open ? ask_after(line, from, left, instant, item) : status;
}

uint32_t fire_by(const timeline *line, int64_t instant, cron_c_item *item)
{
    instant = within_instants(instant);
    const size_t last = era_at(line, instant);
    if (last < STRETCH) {
        return ask_by(line, 0, last + 1, instant, item);
    }
    const size_t from = last + 1 - STRETCH;
    const uint32_t status = ask_by(line, from, STRETCH, instant, item);
    const bool is_open = status == CRON_C_NO_ITEM || (status == CRON_C_OK && item->instant - MARGIN < line->eras[from].starts);
    return is_open ? ask_by(line, 0, last + 1, instant, item) : status;
}

/* Takes a page that a call has written. */
static uint32_t take_page(listing *list, uint32_t status)
{
    list->is_last = status != CRON_C_MORE;
    list->place = 0;
    return status == CRON_C_MORE ? CRON_C_OK : status;
}

uint32_t begin_listing(listing *list, int64_t start, int64_t end)
{
    const timeline *line = &list->line;
    const int64_t first = within_instants(start);
    list->end = within_instants(end);
    return take_page(list, line->rule == CRON_C_ONCE
                               ? cron_c_union_dues_between(line->schedules, line->count, line->eras, line->eras_length,
                                                           first, list->end, list->page, FIRST_PAGE, &list->count)
                               : cron_c_union_fires_between(line->schedules, line->count, line->eras, line->eras_length,
                                                            first, list->end, list->page, FIRST_PAGE, &list->count));
}

/* Lists on from the last fire of a page. */
static uint32_t turn_page(listing *list)
{
    const timeline *line = &list->line;
    const cron_c_item last = list->page[list->count - 1];
    return take_page(list, line->rule == CRON_C_ONCE
                               ? cron_c_union_dues_past(line->schedules, line->count, line->eras, line->eras_length,
                                                        &last, list->end, list->page, PAGE, &list->count)
                               : cron_c_union_fires_past(line->schedules, line->count, line->eras, line->eras_length,
                                                         &last, list->end, list->page, PAGE, &list->count));
}

uint32_t next_listed(listing *list, cron_c_item *item)
{
    if (list->place == list->count && !list->is_last) {
        const uint32_t status = turn_page(list);
        if (status != CRON_C_OK) {
            return status;
        }
    }
    if (list->place == list->count) {
        return CRON_C_NO_ITEM;
    }
    *item = list->page[list->place++];
    return CRON_C_OK;
}
