/* What a text in a database means: the schedules that fire as one, and their rule at clock changes. */
#ifndef EXPRESSIONS_H
#define EXPRESSIONS_H

#include "cron_c.h"

/* The bytes that hold why a text of so many bytes means nothing. */
#define EXPRESSION_MESSAGE(length) CRON_C_MESSAGE(length)

/* The schedules stand in one order, none of them twice. `@reboot`, which no clock fires, has none. */
typedef struct expression {
    size_t count;
    uint32_t rule; /* CRON_C_AS_SHOWN or CRON_C_ONCE */
    cron_c_schedule schedules[CRON_C_QUARTZ_SCHEDULES];
} expression;

/*
 * Reads a text as `crontool` does: five fields or a nickname are a crontab's, six or seven fields the library's, and what
 * stands behind `quartz:` is Quartz's. CRON_C_OK, or another status; the message then has `*needed` bytes, which
 * EXPRESSION_MESSAGE has room for.
 */
uint32_t read_expression(const char *text, size_t length, expression *read, char *message, size_t *needed);

/* Less than 0, 0 or greater: by the first ordinal that one of two alone has, hours before other units, and then by rule. */
int compare_expressions(const expression *one, const expression *other);

/* Reads the name of a rule, `as_shown` or `once`. CRON_C_NO_ENTRY where it is none. */
uint32_t read_rule(const char *text, size_t length);

#endif
