/*
 * The call that takes memory, with each growth refused in turn. Link it with
 * `-Wl,--wrap=malloc,--wrap=realloc,--wrap=free`.
 */
#include "cron_c.h"
#include "pyongyang.h"

#include <stdio.h>
#include <stdlib.h>
#include <string.h>

void *__real_malloc(size_t size);
void *__real_realloc(void *block, size_t size);
void __real_free(void *block);

static int counts, left, blocks, growths;

/* Whether this growth is granted. */
static int granted(void)
{
    growths += counts;
    return !counts || left-- > 0;
}

void *__wrap_malloc(size_t size)
{
    void *block = granted() ? __real_malloc(size) : NULL;
    blocks += counts && block != NULL;
    return block;
}

void *__wrap_realloc(void *block, size_t size)
{
    return granted() ? __real_realloc(block, size) : NULL;
}

void __wrap_free(void *block)
{
    blocks -= counts && block != NULL;
    __real_free(block);
}

int main(void)
{
    static cron_c_era eras[CRON_C_ERAS], before[CRON_C_ERAS];
    uint32_t status = CRON_C_NO_MEMORY;
    size_t count = 9;
    memset(eras, 0x5a, sizeof eras);
    memcpy(before, eras, sizeof eras);
    for (int grants = 0; status == CRON_C_NO_MEMORY && grants < 100; grants++) {
        left = grants;
        growths = 0;
        counts = 1;
        status = cron_c_history_read(PYONGYANG, sizeof PYONGYANG, eras, CRON_C_ERAS, &count);
        counts = 0;
        if (blocks != 0) {
            printf("no_memory: %d blocks aren't given back\n", blocks);
            return 1;
        }
        if (status == CRON_C_NO_MEMORY && (count != 0 || memcmp(eras, before, sizeof eras) != 0)) {
            printf("no_memory: growth %d is refused, and something is written\n", grants);
            return 1;
        }
    }
    if (status != CRON_C_OK || growths == 0) {
        printf("no_memory: %s\n", cron_c_status_text(status));
        return 1;
    }
    printf("examples: growths refused in turn: %d, and nothing is kept\n", growths);
    return 0;
}
