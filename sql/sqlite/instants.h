/* Instants as SQLite's functions take them, and answers in the form of the argument. */
#ifndef INSTANTS_H
#define INSTANTS_H

#include "sqlite3ext.h"

#include <stdbool.h>
#include <stdint.h>

/* How an instant is written. */
typedef enum notation {
    SECONDS,      /* an integer: seconds since 1970-01-01T00:00:00Z */
    REAL_SECONDS, /* the same as a real number, past the Julian days */
    JULIAN_DAY,   /* a real number, as `julianday` answers it */
    JULIAN_TEXT,  /* the same as a text */
    ISO           /* a date and a time */
} notation;

/* What an answer takes over from the argument: of an ISO text the mark before the time, digits of a second, and offset. */
typedef struct form {
    notation as;
    char mark;
    int digits;
    char offset[8]; /* nothing, `Z` or `+01:00` */
    int ahead;      /* of UTC, in seconds */
} form;

/* The second that has begun, and whether a part of it has passed. */
typedef struct moment {
    int64_t second;
    bool has_part;
    form how;
} moment;

/* Reads an argument. False where it is no instant. */
bool read_moment(sqlite3 *database, sqlite3_value *value, moment *read);

/* Has a function answer an instant in a form. */
void answer_moment(sqlite3_context *context, int64_t second, const form *how);

#endif
