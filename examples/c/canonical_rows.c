/*
 * What `cron_c_canonical` writes: the sets of each row of texts as the row has them, and of random sets a text that
 * the reader in this file reads to the same sets. Run it at the top of the repository, where it finds the rows.
 */
#include "edge.h"
#include "rows.h"

#include <dirent.h>

#define ROWS "crates/cron_test_replay/data/"

enum { LINE = 4000, UNITS = 7, MOST = 131 };

/* ---- rows */

/* Characters that a row shows by others. */
static const struct {
    const char *shown, *meant;
    size_t length;
} SHOWN[] = {
    {"␀", "\0", 1}, {"␉", "\t", 1}, {"␊", "\n", 1}, {"␋", "\v", 1}, {"␌", "\f", 1}, {"␍", "\r", 1},
    {"␠", " ", 1}, {"␤", "\xc2\x85", 2}, {"⍽", "\xc2\xa0", 2}, {"⎵", "\xe2\x80\x83", 3}, {"〿", "\xe3\x80\x80", 3}, {"⌷", "\xef\xbb\xbf", 3},
};

/* Puts the text that a row shows in the place of what it shows, and returns how long it is. */
static size_t meant_by(char *row)
{
    char *end = row;
    for (const char *at = row; *at;) {
        size_t place = 0;
        while (place < sizeof SHOWN / sizeof *SHOWN && strncmp(at, SHOWN[place].shown, strlen(SHOWN[place].shown)) != 0) {
            place++;
        }
        if (place == sizeof SHOWN / sizeof *SHOWN) {
            *end++ = *at++;
            continue;
        }
        at += strlen(SHOWN[place].shown);
        memcpy(end, SHOWN[place].meant, SHOWN[place].length);
        end += SHOWN[place].length;
    }
    return (size_t)(end - row);
}

/* A text is read to the sets of its row, which are written as the row has them; or its message is the row's. */
static void replay(char *line)
{
    static char told[CRON_C_MESSAGE(LINE)];
    cron_c_schedule schedule;
    size_t needed = 0;
    char *answer = strstr(line, " | ");
    CHECK(answer != NULL);
    *answer = 0;
    answer += 3;
    const size_t length = meant_by(line), answer_length = meant_by(answer);
    const uint32_t status = cron_c_parse(line, length, &schedule, told, sizeof told, &needed);
    CHECK(status == CRON_C_OK || status == CRON_C_REFUSED);
    if (status == CRON_C_OK) {
        CHECK(cron_c_canonical(&schedule, told, sizeof told, &needed) == CRON_C_OK);
    }
    CHECK(needed == answer_length && memcmp(told, answer, needed) == 0);
}

/* Replays each line of each file of texts. */
static void replay_texts(void)
{
    char path[300];
    DIR *folder = opendir(ROWS);
    CHECK(folder != NULL);
    for (const struct dirent *entry = readdir(folder); entry; entry = readdir(folder)) {
        if (strncmp(entry->d_name, "texts_", 6) != 0) {
            continue;
        }
        snprintf(path, sizeof path, ROWS "%s", entry->d_name);
        replay_file(path, replay);
    }
    CHECK(closedir(folder) == 0);
}

/* ---- random sets */

static const int LEAST[UNITS] = {0, 0, 0, 1, 1, 1, 1970}, GREATEST[UNITS] = {59, 59, 23, 31, 12, 7, 2100};

enum { DAYS = 3, YEARS = 6 };

/* Whether a number is a member of the set of a unit. */
static int has(const cron_c_schedule *schedule, int unit, int number)
{
    const uint64_t words[] = {
        schedule->seconds, schedule->minutes, schedule->hours, schedule->days_of_month, schedule->months,
        schedule->days_of_week, schedule->years_from_1970, schedule->years_from_2034, schedule->years_from_2098,
    };
    const int place = number - LEAST[unit];
    return (int)(words[unit + place / 64] >> place % 64 & 1);
}

/* Reads the number at a place, which is left behind it. */
static int number_at(const char **at)
{
    int number = 0;
    CHECK(**at >= '0' && **at <= '9');
    for (; **at >= '0' && **at <= '9'; ++*at) {
        number = number * 10 + (**at - '0');
    }
    return number;
}

/* Reads a run into the members, which lies past the last one by two at least, and returns its end. */
static int run_at(const char **at, int unit, int last, char *members)
{
    const int first = number_at(at);
    int end = first;
    if (**at == '-') {
        ++*at;
        end = number_at(at);
        CHECK(end > first);
    }
    CHECK(first >= LEAST[unit] && first > last + 1 && end <= GREATEST[unit]);
    memset(members + (first - LEAST[unit]), 1, (size_t)(end - first + 1));
    return end;
}

/* Reads a field into its members: a star for all of them, or runs, and `L` behind the days of the month. */
static int field_at(const char **at, int unit, char *members)
{
    memset(members, 0, MOST);
    if (**at == '*') {
        memset(members, 1, (size_t)(GREATEST[unit] - LEAST[unit] + 1));
        ++*at;
    } else if (**at != 'L') {
        int last = run_at(at, unit, -2, members);
        while (**at == ',' && (*at)[1] != 'L') {
            ++*at;
            last = run_at(at, unit, last, members);
        }
        CHECK(memchr(members, 0, (size_t)(GREATEST[unit] - LEAST[unit] + 1)) != NULL);
    }
    const int marked = unit == DAYS && (**at == 'L' || (**at == ',' && (*at)[1] == 'L'));
    *at += marked ? strcspn(*at, " ") : 0;
    return marked;
}

/* The text is that of the sets. */
static void tells(const cron_c_schedule *schedule, const char *text)
{
    char members[MOST];
    for (int unit = 0; unit < UNITS; unit++) {
        const int marked = field_at(&text, unit, members);
        CHECK(marked == (unit == DAYS && schedule->last_day != 0));
        for (int number = LEAST[unit]; number <= GREATEST[unit]; number++) {
            CHECK(members[number - LEAST[unit]] == has(schedule, unit, number));
        }
        CHECK(*text++ == (unit == YEARS ? 0 : ' '));
    }
}

/* Whether each set has a member. */
static int are_filled(const cron_c_schedule *schedule)
{
    for (int unit = 0; unit < UNITS; unit++) {
        int number = LEAST[unit];
        while (number <= GREATEST[unit] && !has(schedule, unit, number)) {
            number++;
        }
        if (number > GREATEST[unit] && !(unit == DAYS && schedule->last_day)) {
            return 0;
        }
    }
    return 1;
}

/* The text of sets is read back to them, and its front alone is written where there is no room for more. */
static void is_read_back(const cron_c_schedule *schedule, size_t room)
{
    static unsigned char *end;
    char *front = before_edge(&end, room), text[CRON_C_SCHEDULE_TEXT + 1], message[1];
    cron_c_schedule again;
    size_t needed = 9, length = 9;
    memset(front, 'x', room);
    const uint32_t status = cron_c_canonical(schedule, front, room, &needed);
    if (!are_filled(schedule)) {
        CHECK(status == CRON_C_NOT_AN_ITEM && needed == 0 && (room == 0 || front[0] == 'x'));
        return;
    }
    CHECK(status == CRON_C_OK && needed <= CRON_C_SCHEDULE_TEXT);
    CHECK(cron_c_canonical(schedule, text, CRON_C_SCHEDULE_TEXT, &length) == CRON_C_OK && length == needed);
    CHECK(memcmp(front, text, room < length ? room : length) == 0 && (room <= length || front[length] == 'x'));
    text[length] = 0;
    tells(schedule, text);
    CHECK(cron_c_parse(text, length, &again, message, 0, &needed) == CRON_C_OK);
    tells(&again, text);
}

static uint64_t state = 88172645463325252;

static uint64_t chance(void)
{
    state ^= state << 13;
    state ^= state >> 7;
    state ^= state << 17;
    return state;
}

/* Few bits or many, of which some mean nothing. */
static uint64_t some_bits(void)
{
    switch (chance() % 4) {
    case 0: return UINT64_MAX;
    case 1: return chance() & chance() & chance();
    case 2: return UINT64_MAX << chance() % 64;
    default: return chance();
    }
}

static void random_sets(void)
{
    cron_c_schedule schedule;
    for (int tried = 0; tried < 2000; tried++) {
        uint64_t words[16];
        for (size_t place = 0; place < 16; place++) {
            words[place] = some_bits();
        }
        words[4] &= tried % 2 ? 0 : UINT64_MAX;
        memcpy(&schedule, words, sizeof schedule);
        is_read_back(&schedule, (size_t)(chance() % 1400));
    }
}

/* Two numbers of three: no sets have a longer text than such. */
static void longest_text(void)
{
    cron_c_schedule schedule;
    uint64_t words[16];
    for (int first = 0; first < 3; first++) {
        for (size_t place = 0; place < 16; place++) {
            words[place] = UINT64_C(0xdb6db6db6db6db6d) << first;
        }
        memcpy(&schedule, words, sizeof schedule);
        is_read_back(&schedule, 0);
    }
}

int main(void)
{
    replay_texts();
    random_sets();
    longest_text();
    tell_held("canonical texts");
    return 0;
}
