/* Stands in front of the C library in a program, and refuses one of its allocations: the one of the number REFUSED, counted from 0.
   At the program's end it writes to the open file COUNTED how many it was asked for. */

#include <errno.h>
#include <stdio.h>
#include <stdlib.h>

void *__libc_malloc(size_t size);
void *__libc_realloc(void *old, size_t size);

static unsigned long count, refused;
static int counts, counted;

__attribute__((constructor)) static void begin(void)
{
    refused = strtoul(getenv("REFUSED"), NULL, 10);
    counted = atoi(getenv("COUNTED"));
    counts = 1;
}

__attribute__((destructor)) static void end(void)
{
    counts = 0;
    dprintf(counted, "%lu\n", count);
}

static int refuses(void)
{
    if (!counts || count++ != refused)
        return 0;
    errno = ENOMEM;
    return 1;
}

void *malloc(size_t size)
{
    return refuses() ? NULL : __libc_malloc(size);
}

void *realloc(void *old, size_t size)
{
    return refuses() ? NULL : __libc_realloc(old, size);
}
