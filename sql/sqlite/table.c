/*
 * The table `cron_fires(expression, start, end, zone, rule)`: a row for each fire after the start and up to and with the end, in the
 * form of the start. Rows are found as they are asked for. Without an end they go on to the year 2100.
 */
#include "varpsilt.h"

#include <string.h>

SQLITE_EXTENSION_INIT3

static const char CALL[] = "cron_fires";

/* The columns behind `fire`, which are the arguments. */
enum { EXPRESSION, START, END, ZONE, RULE, ARGUMENTS };

typedef struct fires_table {
    sqlite3_vtab base;
    sqlite3 *database;
    shelf *zones;
} fires_table;

typedef struct cursor {
    sqlite3_vtab_cursor base;
    sqlite3_value *arguments[ARGUMENTS];
    zone *taken;
    form how;
    sqlite3_int64 row;
    bool is_at_end;
    cron_c_item item;
    expression read;
    listing list;
} cursor;

static int connect_table(sqlite3 *database, void *zones, int count, const char *const *words, sqlite3_vtab **made, char **message)
{
    (void)count, (void)words, (void)message;
    /* They have names of their own, so that a table of jobs beside this one may call its columns `expression` and `zone`. */
    const int status = sqlite3_declare_vtab(database, "create table fires(fire, cron_expression hidden, cron_start hidden, "
                                                      "cron_end hidden, cron_zone hidden, cron_rule hidden)");
    if (status != SQLITE_OK) {
        return status;
    }
    fires_table *table = sqlite3_malloc64(sizeof *table);
    if (table == NULL) {
        return SQLITE_NOMEM;
    }
    memset(table, 0, sizeof *table);
    table->database = database;
    table->zones = zones;
    *made = &table->base;
    return sqlite3_vtab_config(database, SQLITE_VTAB_INNOCUOUS);
}

static int disconnect_table(sqlite3_vtab *table)
{
    sqlite3_free(table);
    return SQLITE_OK;
}

/* Where the constraint of each argument stands, or -1. False where one can't be used in this plan. */
static bool find_arguments(const sqlite3_index_info *plan, int *places)
{
    bool is_usable = true;
    memset(places, -1, ARGUMENTS * sizeof *places);
    for (int place = 0; place < plan->nConstraint; place++) {
        const int argument = plan->aConstraint[place].iColumn - 1;
        if (argument >= 0 && plan->aConstraint[place].op == SQLITE_INDEX_CONSTRAINT_EQ) {
            is_usable &= plan->aConstraint[place].usable != 0;
            places[argument] = place;
        }
    }
    return is_usable;
}

/* Hands the arguments on in the order of their columns: a bit of `idxNum` for each that is given. */
static int plan_query(sqlite3_vtab *table, sqlite3_index_info *plan)
{
    int places[ARGUMENTS], handed = 0;
    if (!find_arguments(plan, places)) {
        return SQLITE_CONSTRAINT;
    }
    if (places[EXPRESSION] < 0 || places[START] < 0) {
        table->zErrMsg = sqlite3_mprintf("%s: the expression and the start are wanted", CALL);
        return SQLITE_ERROR;
    }
    for (int argument = 0; argument < ARGUMENTS; argument++) {
        if (places[argument] >= 0) {
            plan->aConstraintUsage[places[argument]].argvIndex = ++handed;
            plan->aConstraintUsage[places[argument]].omit = 1;
            plan->idxNum |= 1 << argument;
        }
    }
    plan->estimatedCost = plan->estimatedRows = places[END] >= 0 ? 1000 : 1000000;
    plan->orderByConsumed = plan->nOrderBy == 1 && plan->aOrderBy[0].iColumn == 0 && !plan->aOrderBy[0].desc;
    return SQLITE_OK;
}

static int open_cursor(sqlite3_vtab *table, sqlite3_vtab_cursor **opened)
{
    (void)table;
    cursor *made = sqlite3_malloc64(sizeof *made);
    if (made == NULL) {
        return SQLITE_NOMEM;
    }
    memset(made, 0, sizeof *made);
    made->is_at_end = true;
    *opened = &made->base;
    return SQLITE_OK;
}

/* Gives back what a list holds. */
static void clear_cursor(cursor *at)
{
    for (int argument = 0; argument < ARGUMENTS; argument++) {
        sqlite3_value_free(at->arguments[argument]);
        at->arguments[argument] = NULL;
    }
    if (at->taken != NULL) {
        give_zone(at->taken);
        at->taken = NULL;
    }
    at->is_at_end = true;
    at->row = 0;
}

static int close_cursor(sqlite3_vtab_cursor *closed)
{
    clear_cursor((cursor *)closed);
    sqlite3_free(closed);
    return SQLITE_OK;
}

/* Keeps the arguments that are given. False where there is no memory. */
static bool keep_arguments(cursor *at, int given, sqlite3_value **values, bool *has_null)
{
    bool is_kept = true;
    for (int argument = 0; is_kept && argument < ARGUMENTS; argument++) {
        if (given & 1 << argument) {
            *has_null |= sqlite3_value_type(*values) == SQLITE_NULL;
            at->arguments[argument] = sqlite3_value_dup(*values++);
            is_kept = at->arguments[argument] != NULL;
        }
    }
    return is_kept;
}

/* Reads the arguments into the list, and begins it. */
static fault begin_list(fires_table *table, cursor *at)
{
    moment start, end = {CRON_C_GREATEST_INSTANT, false, {SECONDS, 0, 0, "", 0}};
    fault why = read_text_of(CALL, at->arguments[EXPRESSION], &at->read);
    if (!why.is_there) {
        why = read_moment_of(CALL, "start", table->database, at->arguments[START], &start);
    }
    if (!why.is_there && at->arguments[END] != NULL) {
        why = read_moment_of(CALL, "end", table->database, at->arguments[END], &end);
    }
    if (!why.is_there) {
        why = read_rule_of(CALL, at->arguments[RULE], &at->read.rule);
    }
    if (!why.is_there) {
        why = take_zone_of(CALL, table->zones, at->arguments[ZONE], &at->taken);
    }
    if (why.is_there) {
        return why;
    }
    at->how = start.how;
    at->list.line = (timeline){at->read.schedules, at->read.count, NULL, 0, at->read.rule};
    at->list.line.eras = eras_of(at->taken, &at->list.line.eras_length);
    const uint32_t status = begin_listing(&at->list, start.second, end.second);
    return status == CRON_C_OK ? no_fault() : fault_of(CALL, "zone", "", cron_c_status_text(status));
}

static int step_cursor(sqlite3_vtab_cursor *stepped)
{
    cursor *at = (cursor *)stepped;
    const uint32_t status = next_listed(&at->list, &at->item);
    at->is_at_end = status != CRON_C_OK;
    at->row++;
    return status == CRON_C_OK || status == CRON_C_NO_ITEM ? SQLITE_OK : SQLITE_ERROR;
}

static int begin_cursor(sqlite3_vtab_cursor *begun, int given, const char *name, int count, sqlite3_value **values)
{
    (void)name, (void)count;
    cursor *at = (cursor *)begun;
    bool has_null = false;
    clear_cursor(at);
    if (!keep_arguments(at, given, values, &has_null)) {
        return SQLITE_NOMEM;
    }
    if (has_null) {
        return SQLITE_OK;
    }
    const fault why = begin_list((fires_table *)begun->pVtab, at);
    if (!why.is_there) {
        return step_cursor(begun);
    }
    sqlite3_free(begun->pVtab->zErrMsg);
    begun->pVtab->zErrMsg = why.message;
    return why.message == NULL ? SQLITE_NOMEM : SQLITE_ERROR;
}

static int is_at_end(sqlite3_vtab_cursor *asked)
{
    return ((cursor *)asked)->is_at_end;
}

static int answer_column(sqlite3_vtab_cursor *asked, sqlite3_context *context, int column)
{
    const cursor *at = (const cursor *)asked;
    if (column == 0) {
        answer_moment(context, at->item.instant, &at->how);
    } else if (at->arguments[column - 1] != NULL) {
        sqlite3_result_value(context, at->arguments[column - 1]);
    }
    return SQLITE_OK;
}

static int answer_row(sqlite3_vtab_cursor *asked, sqlite3_int64 *row)
{
    *row = ((const cursor *)asked)->row;
    return SQLITE_OK;
}

static const sqlite3_module TABLE = {
    .xConnect = connect_table,
    .xBestIndex = plan_query,
    .xDisconnect = disconnect_table,
    .xOpen = open_cursor,
    .xClose = close_cursor,
    .xFilter = begin_cursor,
    .xNext = step_cursor,
    .xEof = is_at_end,
    .xColumn = answer_column,
    .xRowid = answer_row,
};

int add_table(sqlite3 *database, shelf *zones)
{
    return sqlite3_create_module_v2(database, CALL, &TABLE, share_shelf(zones), give_shelf);
}
