/* Reads texts by the dialect that they are written in, and orders what they mean. */
#include "expressions.h"

#include <stdbool.h>
#include <string.h>

/* An expression of the library has so many words at least. */
enum { OWN_WORDS = 6 };

typedef struct piece {
    const char *bytes;
    size_t length;
} piece;

static bool is_space(char byte)
{
    return byte == ' ' || byte == '\t' || byte == '\r' || byte == '\n';
}

/* The text from its first word on. */
static piece without_spaces(piece text)
{
    while (text.length > 0 && is_space(text.bytes[0])) {
        text.bytes++;
        text.length--;
    }
    return text;
}

/* Takes the first word of a text, which is empty where there is none, and leaves what stands behind it. */
static piece take_word(piece *text)
{
    piece word = without_spaces(*text);
    const char *end = word.bytes + word.length;
    size_t length = 0;
    while (length < word.length && !is_space(word.bytes[length])) {
        length++;
    }
    word.length = length;
    text->bytes = word.bytes + length;
    text->length = (size_t)(end - text->bytes);
    return word;
}

static bool begins_with(piece text, const char *front)
{
    const size_t length = strlen(front);
    return text.length >= length && memcmp(text.bytes, front, length) == 0;
}

static bool has_words(piece text, size_t wanted)
{
    for (; wanted > 0; wanted--) {
        if (take_word(&text).length == 0) {
            return false;
        }
    }
    return true;
}

/* Both crons let an entry follow the clock whose minute or hour begins with a star, and `@hourly`. */
static bool follows_clock(piece text)
{
    const piece minute = take_word(&text), hour = take_word(&text);
    if (begins_with(minute, "@")) {
        return begins_with(minute, "@hourly") && minute.length == strlen("@hourly");
    }
    return begins_with(minute, "*") || begins_with(hour, "*");
}

static uint32_t read_crontab(piece text, expression *read, char *message, size_t *needed)
{
    read->rule = follows_clock(text) ? CRON_C_AS_SHOWN : CRON_C_ONCE;
    return cron_c_crontab_parse(text.bytes, text.length, read->schedules, CRON_C_QUARTZ_SCHEDULES, &read->count,
                                message, EXPRESSION_MESSAGE(text.length), needed);
}

static uint32_t read_quartz(piece text, expression *read, char *message, size_t *needed)
{
    read->rule = CRON_C_AS_SHOWN;
    return cron_c_quartz_parse(text.bytes, text.length, read->schedules, CRON_C_QUARTZ_SCHEDULES, &read->count,
                               message, EXPRESSION_MESSAGE(text.length), needed);
}

static uint32_t read_own(piece text, expression *read, char *message, size_t *needed)
{
    read->count = 1;
    read->rule = CRON_C_AS_SHOWN;
    return cron_c_parse(text.bytes, text.length, read->schedules, message, EXPRESSION_MESSAGE(text.length), needed);
}

/* A text of neither kind is refused as a crontab's where it has fewer than six words. */
static uint32_t read_unmarked(piece text, expression *read, char *message, size_t *needed)
{
    uint32_t status = read_crontab(text, read, message, needed);
    if (status == CRON_C_OK) {
        return status;
    }
    status = read_own(text, read, message, needed);
    if (status == CRON_C_OK || has_words(text, OWN_WORDS)) {
        return status;
    }
    return read_crontab(text, read, message, needed);
}

/* By the first ordinal that one set alone has: the set that has it comes first. */
static int compare_sets(uint64_t one, uint64_t other)
{
    const uint64_t apart = one ^ other, first = apart & -apart;
    return apart == 0 ? 0 : one & first ? -1 : 1;
}

static int compare_schedules(const cron_c_schedule *one, const cron_c_schedule *other)
{
    const uint64_t pairs[][2] = {
        {one->hours, other->hours},
        {one->minutes, other->minutes},
        {one->seconds, other->seconds},
        {one->days_of_month, other->days_of_month},
        {one->last_day, other->last_day},
        {one->months, other->months},
        {one->days_of_week, other->days_of_week},
        {one->years_from_1970, other->years_from_1970},
        {one->years_from_2034, other->years_from_2034},
        {one->years_from_2098, other->years_from_2098},
    };
    int order = 0;
    for (size_t place = 0; order == 0 && place < sizeof pairs / sizeof pairs[0]; place++) {
        order = compare_sets(pairs[place][0], pairs[place][1]);
    }
    return order;
}

/* Puts a schedule into its place among those that stand in order, unless it stands there. */
static void add_schedule(expression *read, cron_c_schedule added)
{
    size_t place = read->count;
    while (place > 0 && compare_schedules(&read->schedules[place - 1], &added) > 0) {
        place--;
    }
    if (place > 0 && compare_schedules(&read->schedules[place - 1], &added) == 0) {
        return;
    }
    memmove(read->schedules + place + 1, read->schedules + place, (read->count - place) * sizeof added);
    read->schedules[place] = added;
    read->count++;
}

static void order_schedules(expression *read)
{
    const size_t count = read->count;
    read->count = 0;
    for (size_t place = 0; place < count; place++) {
        add_schedule(read, read->schedules[place]);
    }
}

/* Puts what a status says in the stead of a message of the library. */
static void tell_status(uint32_t status, size_t length, char *message, size_t *needed)
{
    const char *said = cron_c_status_text(status);
    *needed = strlen(said) < EXPRESSION_MESSAGE(length) ? strlen(said) : EXPRESSION_MESSAGE(length);
    memcpy(message, said, *needed);
}

uint32_t read_expression(const char *text, size_t length, expression *read, char *message, size_t *needed)
{
    const piece whole = {text, length};
    piece rest = whole;
    const piece first = take_word(&rest);
    uint32_t status;
    if (begins_with(first, "quartz:")) {
        const char *behind = first.bytes + strlen("quartz:");
        status = read_quartz((piece){behind, length - (size_t)(behind - text)}, read, message, needed);
    } else {
        status = read_unmarked(whole, read, message, needed);
    }
    if (status == CRON_C_OK) {
        order_schedules(read);
    } else if (status != CRON_C_REFUSED) {
        tell_status(status, length, message, needed);
    }
    return status;
}

int compare_expressions(const expression *one, const expression *other)
{
    const size_t both = one->count < other->count ? one->count : other->count;
    int order = 0;
    for (size_t place = 0; order == 0 && place < both; place++) {
        order = compare_schedules(&one->schedules[place], &other->schedules[place]);
    }
    if (order == 0) {
        order = (one->count > other->count) - (one->count < other->count);
    }
    return order != 0 ? order : (one->rule > other->rule) - (one->rule < other->rule);
}

uint32_t read_rule(const char *text, size_t length)
{
    const piece name = {text, length};
    if (begins_with(name, "as_shown") && length == strlen("as_shown")) {
        return CRON_C_AS_SHOWN;
    }
    return begins_with(name, "once") && length == strlen("once") ? CRON_C_ONCE : CRON_C_NO_ENTRY;
}
