/* What the files of the extension share: values of the type, and the zones of the server. */
#ifndef VARPSILT_H
#define VARPSILT_H

#include "postgres.h"

#include "fmgr.h"

#include "expressions.h"
#include "timelines.h"

/* The eras of one of the server's zones. They stay while the backend lives, as the zone itself does. */
typedef struct zone_eras {
    const void *zone; /* the key: the server keeps one struct for each zone */
    cron_c_era *eras;
    size_t length;
} zone_eras;

/* The zone of a name as `at time zone` takes it: an abbreviation, the name of a file, or a rule. */
extern const zone_eras *zone_of_name(const char *name);

/* The zone that TimeZone of the session names. */
extern const zone_eras *zone_of_session(void);

/* What a value of the type means. */
extern void unpack_cron(const struct varlena *value, expression *read);

#endif
