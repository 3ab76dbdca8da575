/*
 * Finds zones, and reads their files. Whether a file is the same is looked at once in each second of the machine's clock, since a
 * query asks for its zone a million times.
 */
#include "zones.h"
#include "sqlite3ext.h"

#include <stdbool.h>
#include <stdio.h>
#include <stdlib.h>
#include <string.h>
#include <sys/stat.h>
#include <time.h>

SQLITE_EXTENSION_INIT3

/* No file of a zone is longer, and no path to one. More zones aren't kept. */
enum { MOST_BYTES = 1 << 20, MOST_PATH = 4096, CHAINS = 64, MOST_ZONES = 1000 };

static const char FOLDER[] = "/usr/share/zoneinfo/", MACHINE[] = "/etc/localtime";

struct zone {
    zone *next;
    size_t users; /* the shelf is one */
    bool has_file, is_local;
    struct stat file;
    time_t looked;
    char *path, *text;
    size_t length, count;
    cron_c_era eras[];
};

struct shelf {
    size_t users, count;
    zone *chains[CHAINS];
};

shelf *make_shelf(void)
{
    shelf *made = sqlite3_malloc64(sizeof *made);
    if (made != NULL) {
        memset(made, 0, sizeof *made);
        made->users = 1;
    }
    return made;
}

shelf *share_shelf(shelf *zones)
{
    zones->users++;
    return zones;
}

void give_zone(zone *taken)
{
    if (--taken->users == 0) {
        sqlite3_free(taken->path);
        sqlite3_free(taken->text);
        sqlite3_free(taken);
    }
}

static void free_chain(zone *first)
{
    while (first != NULL) {
        zone *next = first->next;
        give_zone(first);
        first = next;
    }
}

const cron_c_era *eras_of(const zone *taken, size_t *count)
{
    *count = taken->count;
    return taken->eras;
}

static zone *make_zone(const cron_c_era *eras, size_t count)
{
    zone *made = sqlite3_malloc64(sizeof *made + count * sizeof *eras);
    if (made != NULL) {
        memset(made, 0, sizeof *made);
        made->count = count;
        memcpy(made->eras, eras, count * sizeof *eras);
    }
    return made;
}

static zone *always(cron_c_zone stated, uint32_t *status)
{
    const cron_c_era era = CRON_C_ERA_ALWAYS(stated);
    zone *made = make_zone(&era, 1);
    *status = made == NULL ? CRON_C_NO_MEMORY : CRON_C_OK;
    return made;
}

/* Reads the bytes of a file into eras, as many as there are. */
static zone *read_eras(const uint8_t *bytes, size_t length, uint32_t *status)
{
    size_t count = 0, room = CRON_C_ERAS;
    cron_c_era *eras = sqlite3_malloc64(room * sizeof *eras);
    *status = eras == NULL ? CRON_C_NO_MEMORY : cron_c_history_read(bytes, length, eras, room, &count);
    if (*status == CRON_C_MORE) {
        room = count;
        sqlite3_free(eras);
        eras = sqlite3_malloc64(room * sizeof *eras);
        *status = eras == NULL ? CRON_C_NO_MEMORY : cron_c_history_read(bytes, length, eras, room, &count);
    }
    zone *made = *status == CRON_C_OK ? make_zone(eras, count) : NULL;
    sqlite3_free(eras);
    if (*status == CRON_C_OK && made == NULL) {
        *status = CRON_C_NO_MEMORY;
    }
    return made;
}

/* Reads the file at a path, which is a regular one. */
static zone *read_file(const char *path, uint32_t *status)
{
    struct stat file;
    zone *made = NULL;
    *status = CRON_C_BAD_ZONE;
    FILE *stream = fopen(path, "rbe");
    if (stream == NULL) {
        return NULL;
    }
    if (fstat(fileno(stream), &file) == 0 && S_ISREG(file.st_mode) && file.st_size <= MOST_BYTES) {
        const size_t length = (size_t)file.st_size;
        uint8_t *bytes = sqlite3_malloc64(length + 1);
        if (bytes == NULL) {
            *status = CRON_C_NO_MEMORY;
        } else if (fread(bytes, 1, length + 1, stream) == length) {
            made = read_eras(bytes, length, status);
        }
        sqlite3_free(bytes);
    }
    fclose(stream);
    if (made != NULL) {
        made->has_file = true;
        made->file = file;
    }
    return made;
}

/* Reads a file, and keeps the path by which it was found. */
static zone *open_zone(const char *folder, const char *name, uint32_t *status)
{
    char *path = sqlite3_mprintf("%s%s", folder, name);
    zone *made = NULL;
    if (path == NULL) {
        *status = CRON_C_NO_MEMORY;
        return NULL;
    }
    made = read_file(path, status);
    if (made == NULL) {
        sqlite3_free(path);
    } else {
        made->path = path;
    }
    return made;
}

static zone *open_named(const char *name, uint32_t *status)
{
    const char *folder = getenv("TZDIR");
    if (folder == NULL || folder[0] == 0) {
        return open_zone(FOLDER, name, status);
    }
    char *with_end = sqlite3_mprintf("%s/", folder);
    zone *made = with_end == NULL ? NULL : open_zone(with_end, name, status);
    if (with_end == NULL) {
        *status = CRON_C_NO_MEMORY;
    }
    sqlite3_free(with_end);
    return made;
}

/* The machine's own zone, which is UTC where it has no file. */
static zone *open_machine(uint32_t *status)
{
    struct stat file;
    if (stat(MACHINE, &file) != 0) {
        return always((cron_c_zone)CRON_C_ZONE_UTC, status);
    }
    return open_zone("", MACHINE, status);
}

/* Finds a zone that isn't kept. */
static zone *find_zone(const char *text, size_t length, uint32_t *status)
{
    const char *tz = getenv("TZ");
    char name[MOST_PATH + 1];
    cron_c_zone stated;
    uint32_t place;
    size_t needed;
    *status = cron_c_zone_source(text, length, tz ? tz : "", tz ? strlen(tz) : 0, tz != NULL, &stated, &place,
                                 name, MOST_PATH, &needed);
    if (*status != CRON_C_OK || needed > MOST_PATH) {
        *status = CRON_C_BAD_ZONE;
        return NULL;
    }
    name[needed] = 0;
    switch (place) {
    case CRON_C_ZONE_STATED: return always(stated, status);
    case CRON_C_ZONE_IN_FOLDER: return open_named(name, status);
    case CRON_C_ZONE_AT_PATH: return open_zone("", name, status);
    default: return open_machine(status);
    }
}

/* Whether the file of a zone is as it was when it was read. */
static bool is_same(zone *kept)
{
    const time_t now = time(NULL);
    struct stat file;
    if (!kept->has_file || kept->looked == now) {
        return true;
    }
    kept->looked = now;
    return stat(kept->path, &file) == 0 && file.st_dev == kept->file.st_dev && file.st_ino == kept->file.st_ino &&
           file.st_size == kept->file.st_size && file.st_mtim.tv_sec == kept->file.st_mtim.tv_sec &&
           file.st_mtim.tv_nsec == kept->file.st_mtim.tv_nsec;
}

/* What a zone is kept by: its text, or what TZ says in its stead. */
typedef struct key {
    const char *text;
    size_t length;
    bool is_local;
} key;

static key key_of(const char *text, size_t length)
{
    const char *tz = getenv("TZ");
    if (length != strlen("local") || memcmp(text, "local", length) != 0) {
        return (key){text, length, false};
    }
    tz = tz == NULL ? MACHINE : tz;
    return (key){tz, strlen(tz), true};
}

static zone **chain_of(shelf *zones, key wanted)
{
    size_t sum = wanted.length;
    for (size_t place = 0; place < wanted.length; place++) {
        sum = sum * 31 + (unsigned char)wanted.text[place];
    }
    return &zones->chains[sum % CHAINS];
}

static bool is_kept_by(const zone *kept, key wanted)
{
    return kept->length == wanted.length && kept->is_local == wanted.is_local &&
           memcmp(kept->text, wanted.text, wanted.length) == 0;
}

/* The place where a zone stands, or the end of its chain. */
static zone **place_of(shelf *zones, key wanted)
{
    zone **place = chain_of(zones, wanted);
    while (*place != NULL && !is_kept_by(*place, wanted)) {
        place = &(*place)->next;
    }
    return place;
}

static void empty_shelf(shelf *zones)
{
    for (int place = 0; place < CHAINS; place++) {
        free_chain(zones->chains[place]);
        zones->chains[place] = NULL;
    }
    zones->count = 0;
}

/* Puts a zone on the shelf, in the stead of all others where there are too many. False where there is no memory. */
static bool put_zone(shelf *zones, zone *made, key wanted)
{
    made->users = 1;
    made->looked = time(NULL);
    made->length = wanted.length;
    made->is_local = wanted.is_local;
    made->text = sqlite3_malloc64(wanted.length + 1);
    if (made->text == NULL) {
        return false;
    }
    memcpy(made->text, wanted.text, wanted.length);
    if (zones->count == MOST_ZONES) {
        empty_shelf(zones);
    }
    *place_of(zones, wanted) = made;
    zones->count++;
    return true;
}

/* The zone that is kept, if its file is the same. */
static zone *kept_zone(shelf *zones, key wanted)
{
    zone **place = place_of(zones, wanted), *kept = *place;
    if (kept != NULL && !is_same(kept)) {
        *place = kept->next;
        zones->count--;
        give_zone(kept);
        kept = NULL;
    }
    return kept;
}

zone *take_zone(shelf *zones, const char *text, size_t length, uint32_t *status)
{
    const key wanted = key_of(text, length);
    zone *found = kept_zone(zones, wanted);
    *status = CRON_C_OK;
    if (found == NULL) {
        found = find_zone(text, length, status);
        if (found != NULL && !put_zone(zones, found, wanted)) {
            give_zone(found);
            found = NULL;
            *status = CRON_C_NO_MEMORY;
        }
    }
    if (found != NULL) {
        found->users++;
    }
    return found;
}

void give_shelf(void *zones)
{
    shelf *given = zones;
    if (--given->users == 0) {
        empty_shelf(given);
        sqlite3_free(given);
    }
}
