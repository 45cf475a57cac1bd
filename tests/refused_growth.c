/* Stands before the C library's allocator and refuses one growth: the one whose number, from 1, is
 * in REFUSED_GROWTH; none where that is 0. At the end the number of growths goes to the file
 * descriptor in GROWTHS_TOLD, where it is given. Used by refuse-each-growth on programs with one
 * thread; it is no part of the library or of the program. */
#define _GNU_SOURCE
#include <errno.h>
#include <stddef.h>
#include <stdio.h>
#include <stdlib.h>
#include <unistd.h>

extern void *__libc_malloc(size_t size);
extern void *__libc_calloc(size_t count, size_t size);
extern void *__libc_realloc(void *old, size_t size);
extern void *__libc_memalign(size_t alignment, size_t size);

static unsigned long refused, growths;

static int is_refused(void)
{
    growths += 1;
    if (growths != refused)
        return 0;
    errno = ENOMEM;
    return 1;
}

__attribute__((constructor)) static void begin(void)
{
    const char *number = getenv("REFUSED_GROWTH");
    refused = number ? strtoul(number, NULL, 10) : 0;
    growths = 0;
}

__attribute__((destructor)) static void tell(void)
{
    const char *number = getenv("GROWTHS_TOLD");
    if (number) {
        unsigned long counted = growths;
        dprintf(atoi(number), "%lu\n", counted);
    }
}

void *malloc(size_t size)
{
    return is_refused() ? NULL : __libc_malloc(size);
}

void *calloc(size_t count, size_t size)
{
    return is_refused() ? NULL : __libc_calloc(count, size);
}

void *realloc(void *old, size_t size)
{
    return is_refused() ? NULL : __libc_realloc(old, size);
}

void *aligned_alloc(size_t alignment, size_t size)
{
    return is_refused() ? NULL : __libc_memalign(alignment, size);
}

int posix_memalign(void **place, size_t alignment, size_t size)
{
    void *found = is_refused() ? NULL : __libc_memalign(alignment, size);
    if (!found)
        return ENOMEM;
    *place = found;
    return 0;
}
