/* Reads ISO texts itself, since a column has many of them, and leaves to SQLite what else its functions take. */
#include "instants.h"

#include <math.h>
#include <string.h>

SQLITE_EXTENSION_INIT3

/* The Julian day with which 1970 began, and the greatest that SQLite takes. */
static const double DAY_1970 = 2440587.5, LAST_DAY = 5373484.5;

enum { DAY = 86400, MOST_DIGITS = 9 };

/* Reads so many digits, and steps behind them. False where they are others, or less or more than what is allowed. */
static bool read_digits(const char **text, int count, int least, int most, int *number)
{
    *number = 0;
    for (; count > 0; count--, (*text)++) {
        if (**text < '0' || **text > '9') {
            return false;
        }
        *number = *number * 10 + (**text - '0');
    }
    return least <= *number && *number <= most;
}

static bool read_mark(const char **text, char mark)
{
    const bool is = **text == mark;
    *text += is;
    return is;
}

/* Days from 1970-01-01 to a date, in the calendar that goes on before it began. A day past a month's last lies in the next. */
static int64_t days_to(int year, int month, int day)
{
    const int64_t from_march = year - (month <= 2), era = (from_march + 400) / 400 - 1, of_era = from_march - era * 400;
    const int64_t of_year = (153 * (month + (month > 2 ? -3 : 9)) + 2) / 5 + day - 1;
    return era * 146097 + of_era * 365 + of_era / 4 - of_era / 100 + of_year - 719468;
}

static bool read_date(const char **text, int64_t *second)
{
    int year, month, day;
    if (!read_digits(text, 4, 0, 9999, &year) || !read_mark(text, '-') || !read_digits(text, 2, 1, 12, &month) ||
        !read_mark(text, '-') || !read_digits(text, 2, 1, 31, &day)) {
        return false;
    }
    *second = days_to(year, month, day) * DAY;
    return true;
}

/* Passes over the digits of a part of a second, and tells whether one of them isn't 0. */
static bool read_part(const char **text, moment *read)
{
    const char *first = *text;
    for (; **text >= '0' && **text <= '9'; (*text)++) {
        read->has_part |= **text != '0';
    }
    read->how.digits = *text - first < MOST_DIGITS ? (int)(*text - first) : MOST_DIGITS;
    return *text > first;
}

static bool read_time(const char **text, moment *read)
{
    int hour, minute, second = 0;
    if (!read_digits(text, 2, 0, 24, &hour) || !read_mark(text, ':') || !read_digits(text, 2, 0, 59, &minute)) {
        return false;
    }
    if (read_mark(text, ':') &&
        (!read_digits(text, 2, 0, 59, &second) || (read_mark(text, '.') && !read_part(text, read)))) {
        return false;
    }
    read->second += hour * 3600 + minute * 60 + second;
    return true;
}

/* Reads `Z`, or an offset as `+01:00`. */
static bool read_offset(const char **text, moment *read)
{
    const char *first = *text;
    int hours, minutes;
    if (read_mark(text, 'Z') || read_mark(text, 'z')) {
        memcpy(read->how.offset, first, 1);
        return true;
    }
    if ((!read_mark(text, '+') && !read_mark(text, '-')) || !read_digits(text, 2, 0, 14, &hours) || !read_mark(text, ':') ||
        !read_digits(text, 2, 0, 59, &minutes)) {
        return false;
    }
    memcpy(read->how.offset, first, strlen("+01:00"));
    read->how.ahead = (hours * 60 + minutes) * (*first == '-' ? -60 : 60);
    read->second -= read->how.ahead;
    return true;
}

/* Reads a date, and a time with an offset if there are. */
static bool read_iso(const char *text, moment *read)
{
    *read = (moment){0, false, {ISO, ' ', 0, "", 0}};
    if (!read_date(&text, &read->second)) {
        return false;
    }
    if (*text == 0) {
        return true;
    }
    read->how.mark = *text;
    if ((!read_mark(&text, ' ') && !read_mark(&text, 'T')) || !read_time(&text, read)) {
        return false;
    }
    return *text == 0 || (read_offset(&text, read) && *text == 0);
}

/* The second of a number of milliseconds from the day with which Julian days begin. */
static void take_milliseconds(int64_t milliseconds, moment *read)
{
    const int64_t since_1970 = milliseconds - (int64_t)(DAY_1970 * DAY) * 1000;
    read->second = since_1970 / 1000 - (since_1970 % 1000 < 0);
    read->has_part = since_1970 % 1000 != 0;
}

/* Reads a text as SQLite does: `now`, a time without a date, or a Julian day. */
static bool ask_sqlite(sqlite3 *database, const char *text, moment *read)
{
    sqlite3_stmt *question;
    bool is_read = false;
    if (sqlite3_prepare_v2(database, "select julianday(?)", -1, &question, NULL) != SQLITE_OK) {
        return false;
    }
    sqlite3_bind_text(question, 1, text, -1, SQLITE_STATIC);
    if (sqlite3_step(question) == SQLITE_ROW && sqlite3_column_type(question, 0) != SQLITE_NULL) {
        take_milliseconds(llround(sqlite3_column_double(question, 0) * DAY * 1000), read);
        is_read = true;
    }
    sqlite3_finalize(question);
    return is_read;
}

static bool read_text(sqlite3 *database, const char *text, moment *read)
{
    if (read_iso(text, read)) {
        return true;
    }
    *read = (moment){0, false, {ISO, ' ', 0, "", 0}};
    if (text[strspn(text, "0123456789.")] == 0) {
        read->how.as = JULIAN_TEXT;
    }
    return ask_sqlite(database, text, read);
}

/* A real number is a Julian day where SQLite's `auto` takes it for one, and else seconds. */
static void read_real(double number, moment *read)
{
    *read = (moment){0, false, {REAL_SECONDS, 0, 0, "", 0}};
    if (number >= 0 && number < LAST_DAY) {
        read->how.as = JULIAN_DAY;
        take_milliseconds(llround(number * DAY * 1000), read);
    } else {
        const double second = floor(number < -1e15 ? -1e15 : number > 1e15 ? 1e15 : number);
        read->second = (int64_t)second;
        read->has_part = second != number;
    }
}

bool read_moment(sqlite3 *database, sqlite3_value *value, moment *read)
{
    const char *text;
    switch (sqlite3_value_type(value)) {
    case SQLITE_INTEGER:
        *read = (moment){sqlite3_value_int64(value), false, {SECONDS, 0, 0, "", 0}};
        return true;
    case SQLITE_FLOAT: read_real(sqlite3_value_double(value), read); return true;
    default:
        text = (const char *)sqlite3_value_text(value);
        return text != NULL && strlen(text) == (size_t)sqlite3_value_bytes(value) && read_text(database, text, read);
    }
}

static double julian_day(int64_t second)
{
    return (double)second / DAY + DAY_1970;
}

/* Writes a number of so many digits. */
static char *write_digits(char *to, int64_t number, int count)
{
    for (int place = count - 1; place >= 0; place--, number /= 10) {
        to[place] = (char)('0' + number % 10);
    }
    return to + count;
}

/* Writes the date of a day, counted from 1970-01-01 on. */
static char *write_date(char *to, int64_t day)
{
    const int64_t shifted = day + 719468, era = shifted / 146097, of_era = shifted % 146097;
    const int64_t year = (of_era - of_era / 1460 + of_era / 36524 - of_era / 146096) / 365;
    const int64_t of_year = of_era - (365 * year + year / 4 - year / 100), month = (5 * of_year + 2) / 153;
    to = write_digits(to, era * 400 + year + (month >= 10), 4);
    *to++ = '-';
    to = write_digits(to, month < 10 ? month + 3 : month - 9, 2);
    *to++ = '-';
    return write_digits(to, of_year - (153 * month + 2) / 5 + 1, 2);
}

static void answer_iso(sqlite3_context *context, int64_t second, const form *how)
{
    char text[64], *to = text;
    const int64_t shown = second + how->ahead, of_day = (shown % DAY + DAY) % DAY;
    to = write_date(to, (shown - of_day) / DAY);
    *to++ = how->mark;
    to = write_digits(to, of_day / 3600, 2);
    *to++ = ':';
    to = write_digits(to, of_day / 60 % 60, 2);
    *to++ = ':';
    to = write_digits(to, of_day % 60, 2);
    if (how->digits > 0) {
        *to++ = '.';
        to = write_digits(to, 0, how->digits);
    }
    memcpy(to, how->offset, strlen(how->offset));
    to += strlen(how->offset);
    sqlite3_result_text(context, text, (int)(to - text), SQLITE_TRANSIENT);
}

void answer_moment(sqlite3_context *context, int64_t second, const form *how)
{
    char text[40];
    switch (how->as) {
    case SECONDS: sqlite3_result_int64(context, second); break;
    case REAL_SECONDS: sqlite3_result_double(context, (double)second); break;
    case JULIAN_DAY: sqlite3_result_double(context, julian_day(second)); break;
    case JULIAN_TEXT:
        sqlite3_snprintf(sizeof text, text, "%!.15g", julian_day(second));
        sqlite3_result_text(context, text, -1, SQLITE_TRANSIENT);
        break;
    default: answer_iso(context, second, how);
    }
}
