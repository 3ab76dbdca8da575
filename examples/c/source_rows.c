/* Rows that the call must answer which tells where the zone of a text is found. */
#include "edge.h"
#include "rows.h"

enum { NONE = 9 };

/* A text, what TZ holds or NULL where it isn't set, where the zone is found, or NONE, and the file that is named. */
struct row {
    const char *text, *tz;
    uint32_t place;
    const char *path;
};

static const struct row ROWS[] = {
    {"UTC", NULL, CRON_C_ZONE_STATED, ""},
    {"CST6CDT,M3.2.0,M11.1.0", "Europe/Berlin", CRON_C_ZONE_STATED, ""},
    {"EST5", NULL, CRON_C_ZONE_STATED, ""},
    {"<+0330>-3:30", NULL, CRON_C_ZONE_STATED, ""},
    {"America/Chicago", NULL, CRON_C_ZONE_IN_FOLDER, "America/Chicago"},
    {"America/Argentina/Buenos_Aires", "", CRON_C_ZONE_IN_FOLDER, "America/Argentina/Buenos_Aires"},
    {"America/Port-au-Prince", NULL, CRON_C_ZONE_IN_FOLDER, "America/Port-au-Prince"},
    {"Etc/GMT+5", NULL, CRON_C_ZONE_IN_FOLDER, "Etc/GMT+5"},
    {"EST5EDT", NULL, CRON_C_ZONE_IN_FOLDER, "EST5EDT"},
    {"localtime", NULL, CRON_C_ZONE_IN_FOLDER, "localtime"},
    {"local", NULL, CRON_C_ZONE_OF_MACHINE, ""},
    {"local", "", CRON_C_ZONE_STATED, ""},
    {"local", ":", CRON_C_ZONE_STATED, ""},
    {"local", "UTC", CRON_C_ZONE_STATED, ""},
    {"local", ":IST-1GMT0,M10.5.0,M3.5.0/1", CRON_C_ZONE_STATED, ""},
    {"local", "Asia/Tokyo", CRON_C_ZONE_IN_FOLDER, "Asia/Tokyo"},
    {"local", ":Asia/Tokyo", CRON_C_ZONE_IN_FOLDER, "Asia/Tokyo"},
    {"local", ":/etc/localtime", CRON_C_ZONE_AT_PATH, "/etc/localtime"},
    {"local", "local", CRON_C_ZONE_IN_FOLDER, "local"},
    {"local", "/etc/localtime", NONE, ""},
    {"local", "::UTC", NONE, ""},
    {"local", ":../passwd", NONE, ""},
    {"", NULL, NONE, ""},
    {":Asia/Tokyo", NULL, NONE, ""},
    {"/etc/localtime", NULL, NONE, ""},
    {"../../etc/passwd", NULL, NONE, ""},
    {"America/../../passwd", NULL, NONE, ""},
    {"America//Chicago", NULL, NONE, ""},
    {"America/", NULL, NONE, ""},
    {".hidden", NULL, NONE, ""},
    {"America/.hidden", NULL, NONE, ""},
    {"right/America/Chicago", NULL, NONE, ""},
    {"America/New York", NULL, NONE, ""},
};

static unsigned char *text_end, *tz_end, *path_end;

/* The call, with texts and room for a path that end at a page which can't be touched. */
static uint32_t find(const struct row *row, cron_c_zone *zone, uint32_t *place, char **path, size_t room, size_t *needed)
{
    const char *tz = row->tz ? row->tz : "";
    char *text = before_edge(&text_end, strlen(row->text)), *held = before_edge(&tz_end, strlen(tz));
    memcpy(text, row->text, strlen(row->text));
    memcpy(held, tz, strlen(tz));
    *path = before_edge(&path_end, room);
    memset(*path, '?', room);
    memset(zone, 0x5a, sizeof *zone);
    *place = NONE;
    *needed = 77;
    return cron_c_zone_source(text, strlen(row->text), held, strlen(tz), row->tz != NULL, zone, place, *path, room, needed);
}

static int is_untouched(const cron_c_zone *zone)
{
    cron_c_zone untouched;
    memset(&untouched, 0x5a, sizeof untouched);
    return memcmp(zone, &untouched, sizeof untouched) == 0;
}

static void replay(const struct row *row)
{
    const size_t length = strlen(row->path);
    for (size_t room = 0; room <= length + 1; room++) {
        cron_c_zone zone;
        uint32_t place;
        char *path;
        size_t needed;
        const uint32_t status = find(row, &zone, &place, &path, room, &needed);
        CHECK(status == (row->place == NONE ? CRON_C_BAD_ZONE : CRON_C_OK));
        CHECK(place == row->place && needed == length);
        CHECK(memcmp(path, row->path, room < length ? room : length) == 0);
        CHECK(room <= length || path[length] == '?');
        CHECK(is_untouched(&zone) == (row->place != CRON_C_ZONE_STATED));
    }
}

/* What is stated is read as the text alone is: `UTC` where TZ has nothing. */
static void stated(const char *text, const char *tz, const char *alone)
{
    const struct row row = {text, tz, CRON_C_ZONE_STATED, ""};
    cron_c_zone zone;
    uint32_t place;
    char *path;
    size_t needed;
    CHECK(find(&row, &zone, &place, &path, 0, &needed) == CRON_C_OK && place == CRON_C_ZONE_STATED);
    CHECK(memcmp(&zone, named(alone), sizeof zone) == 0);
}

static void not_utf8(void)
{
    static const struct row rows[] = {{"\xff", NULL, NONE, ""}, {"Asia/Tok\xc3", NULL, NONE, ""}, {"local", "\xff", NONE, ""}, {"UTC", "\xff", NONE, ""}};
    for (size_t at = 0; at < sizeof rows / sizeof *rows; at++) {
        cron_c_zone zone;
        uint32_t place;
        char *path;
        size_t needed;
        CHECK(find(rows + at, &zone, &place, &path, 3, &needed) == CRON_C_NOT_UTF8);
        CHECK(place == NONE && needed == 0 && is_untouched(&zone) && memcmp(path, "???", 3) == 0);
    }
    /* What TZ holds doesn't count where it isn't set. */
    cron_c_zone zone;
    uint32_t place;
    size_t needed;
    CHECK(cron_c_zone_source(CRON_C_TEXT("UTC"), "\xff", 1, 0, &zone, &place, CRON_C_NO_TEXT, &needed) == CRON_C_OK);
}

int main(void)
{
    for (size_t at = 0; at < sizeof ROWS / sizeof *ROWS; at++) {
        replay(ROWS + at);
    }
    stated("UTC", NULL, "UTC");
    stated(CHICAGO, NULL, CHICAGO);
    stated("local", "", "UTC");
    stated("local", ":" CHICAGO, CHICAGO);
    not_utf8();
    tell_held("where zones are found");
    return 0;
}
