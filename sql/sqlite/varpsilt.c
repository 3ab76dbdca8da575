/*
 * The loadable extension: `cron_next`, `cron_previous`, `cron_is_valid` and `cron_fault`. A text that stands for all rows is read
 * once, and kept with the query. Answers are the same for the same arguments, so an index may hold them, unless they say `now` or
 * `local`.
 */
#include "varpsilt.h"

#include <string.h>

SQLITE_EXTENSION_INIT1

static void answer_fault(sqlite3_context *context, fault why)
{
    if (why.message == NULL) {
        sqlite3_result_error_nomem(context);
        return;
    }
    sqlite3_result_error(context, why.message, -1);
    sqlite3_free(why.message);
}

static bool is_any_null(int count, sqlite3_value **values)
{
    bool is = false;
    for (int place = 0; place < count; place++) {
        is |= sqlite3_value_type(values[place]) == SQLITE_NULL;
    }
    return is;
}

/* The bytes of an expression up to the last of its schedules. */
static size_t size_of(const expression *read)
{
    return offsetof(expression, schedules) + read->count * sizeof read->schedules[0];
}

/* What the first argument means. It is read to `room`, and where no memory is left to keep it, it is read again. */
static fault expression_of(sqlite3_context *context, const char *call, sqlite3_value *value, expression *room,
                           const expression **found)
{
    *found = sqlite3_get_auxdata(context, 0);
    if (*found != NULL) {
        return no_fault();
    }
    const fault why = read_text_of(call, value, room);
    *found = room;
    expression *kept = why.is_there ? NULL : sqlite3_malloc64(size_of(room));
    if (kept != NULL) {
        memcpy(kept, room, size_of(room));
        sqlite3_set_auxdata(context, 0, kept, sqlite3_free);
    }
    return why;
}

/* A function that asks a timeline: which call, and how its instants are named. */
typedef struct question {
    const char *call, *argument;
    bool is_back;
} question;

static const question NEXT = {"cron_next", "after", false}, PREVIOUS = {"cron_previous", "before", true};

static uint32_t ask(const question *asked, const timeline *line, const moment *at, cron_c_item *item)
{
    const int64_t second = within_instants(at->second);
    return asked->is_back ? fire_by(line, second - !at->has_part, item) : fire_after(line, second, item);
}

/* Answers by a timeline whose zone is known. */
static fault answer(sqlite3_context *context, const question *asked, const timeline *line, const moment *at)
{
    cron_c_item item;
    const uint32_t status = ask(asked, line, at, &item);
    if (status == CRON_C_OK) {
        answer_moment(context, item.instant, &at->how);
    }
    return status == CRON_C_OK || status == CRON_C_NO_ITEM ? no_fault()
                                                          : fault_of(asked->call, "zone", "", cron_c_status_text(status));
}

static fault answer_question(sqlite3_context *context, const question *asked, int count, sqlite3_value **values)
{
    const expression *read;
    expression room;
    moment at;
    zone *taken;
    fault why = expression_of(context, asked->call, values[0], &room, &read);
    if (why.is_there) {
        return why;
    }
    uint32_t rule = read->rule;
    why = read_moment_of(asked->call, asked->argument, sqlite3_context_db_handle(context), values[1], &at);
    if (!why.is_there) {
        why = read_rule_of(asked->call, count > 3 ? values[3] : NULL, &rule);
    }
    if (!why.is_there) {
        why = take_zone_of(asked->call, sqlite3_user_data(context), count > 2 ? values[2] : NULL, &taken);
    }
    if (why.is_there) {
        return why;
    }
    timeline line = {read->schedules, read->count, NULL, 0, rule};
    line.eras = eras_of(taken, &line.eras_length);
    why = answer(context, asked, &line, &at);
    give_zone(taken);
    return why;
}

static void answer_to(sqlite3_context *context, const question *asked, int count, sqlite3_value **values)
{
    if (is_any_null(count, values)) {
        return;
    }
    const fault why = answer_question(context, asked, count, values);
    if (why.is_there) {
        answer_fault(context, why);
    }
}

static void cron_next(sqlite3_context *context, int count, sqlite3_value **values)
{
    answer_to(context, &NEXT, count, values);
}

static void cron_previous(sqlite3_context *context, int count, sqlite3_value **values)
{
    answer_to(context, &PREVIOUS, count, values);
}

/* Whether a text means something. */
static void cron_is_valid(sqlite3_context *context, int count, sqlite3_value **values)
{
    expression read;
    if (is_any_null(count, values)) {
        return;
    }
    const fault why = read_text_of("cron_is_valid", values[0], &read);
    if (why.is_there && why.message == NULL) {
        sqlite3_result_error_nomem(context);
        return;
    }
    sqlite3_free(why.message);
    sqlite3_result_int(context, !why.is_there);
}

/* Why a text means nothing, in the library's words alone. */
static void cron_fault(sqlite3_context *context, int count, sqlite3_value **values)
{
    if (is_any_null(count, values)) {
        return;
    }
    const char *text = (const char *)sqlite3_value_text(values[0]);
    const size_t length = (size_t)sqlite3_value_bytes(values[0]);
    char *message = sqlite3_malloc64(EXPRESSION_MESSAGE(length));
    expression read;
    size_t needed;
    if (message == NULL || (text == NULL && length > 0)) {
        sqlite3_free(message);
        sqlite3_result_error_nomem(context);
        return;
    }
    if (read_expression(text == NULL ? "" : text, length, &read, message, &needed) == CRON_C_OK) {
        sqlite3_free(message);
        return;
    }
    sqlite3_result_text(context, message, (int)needed, sqlite3_free);
}

enum { FLAGS = SQLITE_UTF8 | SQLITE_DETERMINISTIC | SQLITE_INNOCUOUS };

/* A function, and with how many arguments it may be called. */
typedef struct entry {
    const char *name;
    void (*call)(sqlite3_context *, int, sqlite3_value **);
    int least, most;
} entry;

static const entry ENTRIES[] = {
    {"cron_next", cron_next, 2, 4},
    {"cron_previous", cron_previous, 2, 4},
    {"cron_is_valid", cron_is_valid, 1, 1},
    {"cron_fault", cron_fault, 1, 1},
};

static int add_entry(sqlite3 *database, const entry *added, shelf *zones)
{
    int status = SQLITE_OK;
    for (int count = added->least; status == SQLITE_OK && count <= added->most; count++) {
        status = sqlite3_create_function_v2(database, added->name, count, FLAGS, share_shelf(zones), added->call, NULL, NULL,
                                            give_shelf);
    }
    return status;
}

__attribute__((visibility("default"))) int sqlite3_varpsilt_init(sqlite3 *database, char **message, const sqlite3_api_routines *routines)
{
    (void)message;
    SQLITE_EXTENSION_INIT2(routines);
    shelf *zones = make_shelf();
    if (zones == NULL) {
        return SQLITE_NOMEM;
    }
    /* SQLite gives back what it was given also where it takes nothing. */
    int status = add_table(database, zones);
    for (size_t place = 0; status == SQLITE_OK && place < sizeof ENTRIES / sizeof ENTRIES[0]; place++) {
        status = add_entry(database, &ENTRIES[place], zones);
    }
    give_shelf(zones);
    return status;
}
