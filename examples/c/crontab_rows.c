/*
 * Rows of crontabs that `cron_c_crontab_parse` and `cron_c_crontab_line_parse` must answer: expressions with what
 * Debian's cron and cronie make of them, texts with the message of their refusal, and lines with what they are. Run it
 * at the top of the repository, where it finds them.
 */
#include "edge.h"
#include "rows.h"

#include <inttypes.h>

#define ROWS "crates/cron_test_tabs/data/"

enum { ROOM = 2, LINE = 1000 };

static cron_c_schedule schedules[ROOM], untouched[ROOM];
static char message[CRON_C_MESSAGE(LINE)];
static size_t count, needed;

/* Reads a text that ends at a page which can't be touched. */
static uint32_t read_text(const char *text, size_t length, size_t room)
{
    static unsigned char *end;
    char *copy = before_edge(&end, length);
    memcpy(copy, text, length);
    memset(schedules, 0x5a, sizeof schedules);
    memcpy(untouched, schedules, sizeof schedules);
    count = needed = 9;
    return cron_c_crontab_parse(copy, length, schedules, room, &count, message, sizeof message, &needed);
}

static int nothing_is_written(void)
{
    return memcmp(schedules, untouched, sizeof schedules) == 0;
}

/* The sets of an expression, bit i for the number i. */
struct told {
    uint64_t minutes, hours, days, months, weekdays;
    int day_star, week_star, reboot;
};

static struct told told_by(const char *answer)
{
    struct told told;
    CHECK(sscanf(answer, "OK %" SCNx64 " %" SCNx64 " %" SCNx64 " %" SCNx64 " %" SCNx64 " %d %d %d", &told.minutes, &told.hours,
                 &told.days, &told.months, &told.weekdays, &told.day_star, &told.week_star, &told.reboot) == 8);
    return told;
}

static int has_bit(uint64_t bits, int bit)
{
    return bits >> bit & 1;
}

/* Whether one of the schedules matches a day of the month that is this day of the week, from 0 for Sunday. */
static int matches_day(int day, int weekday)
{
    for (size_t at = 0; at < count; at++) {
        if (has_bit(schedules[at].days_of_month, day - 1) && has_bit(schedules[at].days_of_week, weekday)) {
            return 1;
        }
    }
    return 0;
}

static int cron_matches_day(const struct told *told, int day, int weekday)
{
    const int month = has_bit(told->days, day), week = has_bit(told->weekdays, weekday);
    return told->day_star || told->week_star ? month && week : month || week;
}

/* The schedules have the row's times in all years, and match its days. */
static void are_as_told(const struct told *told)
{
    CHECK(told->reboot ? count == 0 : count > 0);
    for (size_t at = 0; at < count; at++) {
        const cron_c_schedule *schedule = schedules + at;
        CHECK(schedule->seconds == 1 && schedule->minutes == told->minutes && schedule->hours == told->hours);
        CHECK(schedule->months == told->months >> 1 && schedule->last_day == 0);
        CHECK(schedule->years_from_1970 == UINT64_MAX && schedule->years_from_2034 == UINT64_MAX && schedule->years_from_2098 == 7);
    }
    CHECK(memcmp(schedules + count, untouched + count, (ROOM - count) * sizeof *schedules) == 0);
    for (int day = 1; count > 0 && day <= 31; day++) {
        for (int weekday = 0; weekday < 7; weekday++) {
            CHECK(matches_day(day, weekday) == cron_matches_day(told, day, weekday));
        }
    }
}

/* Reads a line that ends at a page which can't be touched. */
static uint32_t read_line(const char *line, size_t length, uint32_t is_system)
{
    static unsigned char *end;
    char *copy = before_edge(&end, length);
    memcpy(copy, line, length);
    memset(schedules, 0x5a, sizeof schedules);
    count = needed = 9;
    return cron_c_crontab_line_parse(copy, length, is_system, schedules, ROOM, &count, message, sizeof message, &needed);
}

/* The expression that was read is the same in a line of a user's crontab and of the system's. */
static void same_in_a_line(const char *expression)
{
    static const char *const behind[] = { " c", " root c" };
    cron_c_schedule read[ROOM];
    const size_t whole = count;
    memcpy(read, schedules, sizeof read);
    for (uint32_t is_system = 0; is_system < 2; is_system++) {
        char line[LINE];
        const int length = snprintf(line, sizeof line, "%s%s", expression, behind[is_system]);
        CHECK(read_line(line, (size_t)length, is_system) == CRON_C_OK && count == whole && needed == 0);
        CHECK(memcmp(schedules, read, sizeof read) == 0);
    }
}

/* Puts the bytes that a row names in place, and leaves out the line feed at the end. Returns their number. */
static size_t named_bytes(char *text)
{
    char *to = text;
    for (const char *from = text; *from && strcmp(from, "<L>") != 0; to++) {
        const char *at = strncmp(from, "<T>", 3) == 0 ? "\t" : strncmp(from, "<R>", 3) == 0 ? "\r" : strncmp(from, "<0>", 3) == 0 ? "" : NULL;
        *to = at ? *at : *from;
        from += at ? 3 : 1;
    }
    return (size_t)(to - text);
}

/* What a file of one line has. */
static void replay_line(char *row)
{
    char *text = strchr(row, '\t'), *told = text ? strchr(text + 1, '\t') : NULL;
    CHECK(text && told);
    *text++ = *told++ = 0;
    const char *feed = strstr(text, "<L>");
    if (!*told || strstr(text, "<BOM>") || (feed && feed[3])) {
        return;
    }
    const uint32_t status = read_line(text, named_bytes(text), strcmp(row, "system") == 0);
    told += 2;
    if (strncmp(told, "refused ", 8) == 0) {
        CHECK(status == CRON_C_REFUSED && count == 0 && needed == strlen(told + 8) && memcmp(message, told + 8, needed) == 0);
    } else if (strncmp(told, "entry ", 6) == 0) {
        CHECK(status == CRON_C_OK && needed == 0 && count == (told[6] == 'r' ? 0 : told[6] == 'o' ? 1 : 2));
    } else {
        CHECK(status == CRON_C_NO_ITEM && count == 0 && needed == 0);
    }
}

/* What both crons make of an expression alike is what it means. Every other one is refused. */
static void replay_crons(char *line)
{
    char *debian = strchr(line, '\t'), *cronie = debian ? strchr(debian + 1, '\t') : NULL;
    CHECK(debian && cronie);
    *debian++ = *cronie++ = 0;
    const size_t length = strlen(line);
    const uint32_t status = read_text(line, length, ROOM);
    if (strcmp(debian, cronie) != 0 || strncmp(debian, "OK ", 3) != 0) {
        CHECK(status == CRON_C_REFUSED && count == 0 && nothing_is_written());
        CHECK(needed > 0 && needed < CRON_C_MESSAGE(length));
        return;
    }
    const struct told told = told_by(debian);
    CHECK(status == CRON_C_OK && needed == 0);
    are_as_told(&told);
    same_in_a_line(line);
    for (size_t room = 0, whole = count; room < whole; room++) {
        CHECK(read_text(line, length, room) == CRON_C_MORE && count == whole && needed == 0 && nothing_is_written());
    }
}

static void replay_messages(char *line)
{
    char *told = strstr(line, " | ");
    CHECK(told != NULL);
    CHECK(read_text(line, (size_t)(told - line), ROOM) == CRON_C_REFUSED && count == 0 && nothing_is_written());
    told += 3;
    CHECK(needed == strlen(told) && memcmp(message, told, needed) == 0);
}

/* A message that doesn't fit, none at all, and a text that isn't UTF-8. */
static void arguments(void)
{
    char front[5];
    memset(front, 'x', sizeof front);
    CHECK(cron_c_crontab_parse("60 * * * *", 10, schedules, ROOM, &count, front, 4, &needed) == CRON_C_REFUSED);
    CHECK(needed == 38 && memcmp(front, "minux", 5) == 0);
    CHECK(cron_c_crontab_parse(CRON_C_TEXT("@reboot"), schedules, 0, &count, CRON_C_NO_TEXT, &needed) == CRON_C_OK && count == 0);
    CHECK(cron_c_crontab_parse(CRON_C_TEXT("* * * * 8"), schedules, 0, &count, CRON_C_NO_TEXT, &needed) == CRON_C_REFUSED);
    CHECK(needed > 0 && count == 0);
    CHECK(read_text("* * * * \xff", 9, ROOM) == CRON_C_NOT_UTF8 && count == 0 && needed == 0 && nothing_is_written());
}

/* Reads a text of two lines or more, and compares the message that refuses it. */
static void are_lines(const char *text, const char *told)
{
    CHECK(read_text(text, strlen(text), ROOM) == CRON_C_REFUSED && count == 0 && nothing_is_written());
    CHECK(needed == strlen(told) && memcmp(message, told, needed) == 0);
}

/* A line feed, or a carriage return, stands in an expression at its end alone, and a line feed in a line. */
static void lines(void)
{
    static const char *const two[] = { "0 9 * * * a\n0 10 * * * b", "# a\n0 10 * * * b", "\n0 10 * * * b", "A=b\nc", "0 9 * * * a\n\n" };
    static const char told[] = "a line feed stands within the line: each line is read by itself";
    are_lines("0\n9 * * *", "'9' stands behind a line break: an expression is one line");
    are_lines("0\r9 * * *", "'9' stands behind a line break: an expression is one line");
    are_lines("0 9 * * *\n0 10 * * *", "'0' stands behind a line break: an expression is one line");
    are_lines("\r\n@daily", "'@daily' stands behind a line break: an expression is one line");
    CHECK(read_text("0 9 * * *\r\n \n", 13, ROOM) == CRON_C_OK && count == 1 && needed == 0);
    for (uint32_t is_system = 0; is_system < 2; is_system++) {
        for (size_t at = 0; at < sizeof two / sizeof *two; at++) {
            CHECK(read_line(two[at], strlen(two[at]), is_system) == CRON_C_REFUSED && count == 0);
            CHECK(needed == strlen(told) && memcmp(message, told, needed) == 0);
        }
        CHECK(read_line("0 9 * * * a b\n", 14, is_system) == CRON_C_OK && count == 1 && needed == 0);
        CHECK(read_line("A=b\n", 4, is_system) == CRON_C_NO_ITEM && count == 0 && needed == 0);
    }
}

int main(void)
{
    replay_file(ROWS "lines.tsv", replay_crons);
    replay_file(ROWS "messages.txt", replay_messages);
    replay_file(ROWS "files.tsv", replay_line);
    arguments();
    lines();
    tell_held("crontabs");
    return 0;
}
