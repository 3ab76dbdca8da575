/*
 * Buffers that end at a page which can't be read or written: a call that touches a byte past their end
 * ends the program. The archive isn't built for the sanitizers, which see no more of its calls than what
 * goes through the C library. Include it before other headers.
 */
#ifndef EDGE_H
#define EDGE_H

#ifndef _DEFAULT_SOURCE
#define _DEFAULT_SOURCE
#endif

#include <stddef.h>
#include <stdio.h>
#include <stdlib.h>
#include <sys/mman.h>
#include <unistd.h>

/*
 * Returns the last `length` bytes before such a page, 65,536 at most. `*end`, which begins as a null
 * pointer, is where they end; a later buffer of the same `*end` takes the place of the one before it.
 */
static inline void *before_edge(unsigned char **end, size_t length)
{
    const size_t room = 65536, page = (size_t)sysconf(_SC_PAGESIZE);
    if (!*end) {
        unsigned char *start = mmap(NULL, room + page, PROT_READ | PROT_WRITE, MAP_PRIVATE | MAP_ANONYMOUS, -1, 0);
        if (start == MAP_FAILED || mprotect(start + room, page, PROT_NONE) != 0) {
            perror("a page that can't be touched");
            exit(1);
        }
        *end = start + room;
    }
    return *end - length;
}

#endif
