/*
 * Rows of Quartz that `cron_c_quartz_parse` must answer: expressions with the fires that Quartz has, texts that it refuses,
 * and texts with the message of their refusal. Run it at the top of the repository, where it finds them.
 */
#include "edge.h"
#include "rows.h"

#define ROWS "crates/cron_test_unions/data/quartz_"

enum { LINE = 1000 };

/* 2024-01-15T00:00:00Z, after which the fires of a row come. */
static const int64_t START = 1705276800;

static cron_c_schedule schedules[CRON_C_QUARTZ_SCHEDULES], untouched[CRON_C_QUARTZ_SCHEDULES];
static char message[CRON_C_MESSAGE(LINE)];
static size_t count, needed;

/* Reads a text that ends at a page which can't be touched. */
static uint32_t read_text(const char *text, size_t length, size_t room)
{
    static unsigned char *end;
    char *copy = before_edge(&end, length);
    memcpy(copy, text, length);
    memset(schedules, 0x5a, sizeof schedules);
    memcpy(untouched, schedules, sizeof schedules);
    count = needed = 99;
    return cron_c_quartz_parse(copy, length, schedules, room, &count, message, sizeof message, &needed);
}

static void nothing_is_written(void)
{
    CHECK(memcmp(schedules, untouched, sizeof schedules) == 0);
}

static void is_refused(const char *text, size_t length)
{
    CHECK(read_text(text, length, CRON_C_QUARTZ_SCHEDULES) == CRON_C_REFUSED && count == 0);
    CHECK(needed > 0 && needed < CRON_C_MESSAGE(length));
    nothing_is_written();
}

static void replay_refused(char *line)
{
    is_refused(line, strlen(line));
}

static void replay_messages(char *line)
{
    char *told = strstr(line, " | ");
    CHECK(told != NULL);
    is_refused(line, (size_t)(told - line));
    told += 3;
    CHECK(needed == strlen(told) && memcmp(message, told, needed) == 0);
}

/* Whether the text of an item in UTC is an instant as rows have it. */
static int is_at(const cron_c_item *item, const char *instant)
{
    char text[CRON_C_ITEM_TEXT];
    size_t length = 0;
    CHECK(cron_c_format(item, text, sizeof text, &length) == CRON_C_OK && length == 26);
    text[10] = 'T';
    return memcmp(text, instant, 19) == 0 && instant[19] == 'Z';
}

/* The union of an expression has the fires of its row. */
static void replay_fires(char *line)
{
    char *fires = strchr(line, '\t');
    CHECK(fires != NULL);
    *fires++ = 0;
    CHECK(read_text(line, strlen(line), CRON_C_QUARTZ_SCHEDULES) == CRON_C_OK && needed == 0);
    CHECK(count > 0 && count <= CRON_C_QUARTZ_SCHEDULES);
    CHECK(memcmp(schedules + count, untouched, (CRON_C_QUARTZ_SCHEDULES - count) * sizeof *schedules) == 0);
    const cron_c_era utc = CRON_C_ERA_ALWAYS(CRON_C_ZONE_UTC);
    cron_c_item item = {START, 0, 0};
    for (char *fire = strtok(fires, " "); fire; fire = strtok(NULL, " ")) {
        CHECK(cron_c_union_fire_after(schedules, count, &utc, 1, item.instant, &item) == CRON_C_OK && is_at(&item, fire));
    }
    const size_t whole = count;
    CHECK(read_text(line, strlen(line), whole - 1) == CRON_C_MORE && count == whole && needed == 0);
    nothing_is_written();
}

/* A message that doesn't fit, none at all, and a text that isn't UTF-8. */
static void arguments(void)
{
    char front[5];
    memset(front, 'x', sizeof front);
    CHECK(cron_c_quartz_parse(CRON_C_TEXT("0 0 24 1 * ?"), schedules, 0, &count, front, 4, &needed) == CRON_C_REFUSED);
    CHECK(needed == strlen("Hours: '24': 24 is not one of 0 to 23") && memcmp(front, "Hourx", 5) == 0);
    CHECK(cron_c_quartz_parse(CRON_C_TEXT("0 0 0 * * *"), schedules, 0, &count, CRON_C_NO_TEXT, &needed) == CRON_C_REFUSED);
    CHECK(needed > 0 && count == 0);
    CHECK(read_text("0 0 0 1 * \xff", 11, CRON_C_QUARTZ_SCHEDULES) == CRON_C_NOT_UTF8 && count == 0 && needed == 0);
    nothing_is_written();
}

int main(void)
{
    replay_file(ROWS "fires.tsv", replay_fires);
    replay_file(ROWS "refused.txt", replay_refused);
    replay_file(ROWS "messages.txt", replay_messages);
    arguments();
    tell_held("Quartz");
    return 0;
}
