#include "refuse.h"

#include <errno.h>
#include <stddef.h>
#include <stdlib.h>

/* from glibc */
extern void *__libc_malloc(size_t), *__libc_calloc(size_t, size_t), *__libc_realloc(void *, size_t);
extern void __libc_free(void *);

static struct asked asked;
static bool is_counting;
static long refused_number;

void refuse_begin(long number)
{
    asked = (struct asked){0, false, 0, 0};
    refused_number = number;
    is_counting = true;
}

struct asked refuse_end(void)
{
    is_counting = false;
    return asked;
}

static bool refuses(size_t size)
{
    if (!is_counting)
        return false;
    asked.growths++;
    asked.order = (asked.order ^ size) * UINT64_C(0x100000001B3);
    if (asked.growths != refused_number)
        return false;
    asked.is_refused = true;
    errno = ENOMEM;
    return true;
}

static void *given(void *block, long more)
{
    if (is_counting && block)
        asked.held += more;
    return block;
}

void *malloc(size_t size)
{
    return refuses(size) ? NULL : given(__libc_malloc(size), 1);
}

void *calloc(size_t count, size_t size)
{
    return refuses(count * size) ? NULL : given(__libc_calloc(count, size), 1);
}

void *realloc(void *former, size_t size)
{
    return refuses(size) ? NULL : given(__libc_realloc(former, size), former == NULL);
}

void free(void *block)
{
    given(block, -1);
    __libc_free(block);
}
