/* What the functions and the table share: what the arguments of a call mean. */
#ifndef VARPSILT_H
#define VARPSILT_H

#include "expressions.h"
#include "instants.h"
#include "timelines.h"
#include "zones.h"

/* Why a call fails. The message is of sqlite3_malloc, and NULL where there is no memory. */
typedef struct fault {
    bool is_there;
    char *message;
} fault;

fault no_fault(void);
fault fault_of(const char *call, const char *argument, const char *text, const char *why);
fault fault_of_memory(void);

/* Reads an expression. */
fault read_text_of(const char *call, sqlite3_value *value, expression *read);

/* Reads an instant: the argument has this name. */
fault read_moment_of(const char *call, const char *argument, sqlite3 *database, sqlite3_value *value, moment *read);

/* Finds the zone of an argument, or UTC where there is none. Give it back. */
fault take_zone_of(const char *call, shelf *zones, sqlite3_value *value, zone **taken);

/* Reads the rule of an argument, if there is one. */
fault read_rule_of(const char *call, sqlite3_value *value, uint32_t *rule);

/* Adds the table `cron_fires` to a connection. */
int add_table(sqlite3 *database, shelf *zones);

#endif
