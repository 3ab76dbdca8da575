/* Zones by name: a connection keeps what it has read, as long as the file is the same. */
#ifndef ZONES_H
#define ZONES_H

#include "cron_c.h"

/* A zone that was read. */
typedef struct zone zone;

/* The zones of a connection. */
typedef struct shelf shelf;

/* NULL where there is no memory. It is freed when its last user gives it back, as whoever makes it does too. */
shelf *make_shelf(void);
shelf *share_shelf(shelf *zones);
void give_shelf(void *zones);

/*
 * Finds the zone of a text as `crontool` does: `UTC`, a rule, the name of a file below /usr/share/zoneinfo, or the folder that
 * TZDIR names, or `local`. NULL where there is none; the status is then CRON_C_BAD_ZONE or CRON_C_NO_MEMORY. Give it back.
 */
zone *take_zone(shelf *zones, const char *text, size_t length, uint32_t *status);
void give_zone(zone *taken);

/* The eras of a zone. */
const cron_c_era *eras_of(const zone *taken, size_t *count);

#endif
