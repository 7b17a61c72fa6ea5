#ifndef _GNU_SOURCE
#define _GNU_SOURCE /* MAP_ANONYMOUS */
#endif
#include "window.h"

#include <stddef.h>
#include <sys/mman.h>

#include "bus.h"
#include "verdict.h"

/* The physical function's window comes first, then the others. An unused range of the same size follows each. Each
   window begins at a multiple of its size, as a BAR does. */
#define PHYSICAL_STEP (2 * (size_t)BUS_SPACE)
#define VIRTUAL_STEP (2 * (size_t)BUS_FUNCTION_SPACE)

static unsigned char *windows, *reserved;
static size_t length;

bool window_open(unsigned int virtual_functions)
{
    length = PHYSICAL_STEP + virtual_functions * VIRTUAL_STEP;
    void *at = mmap(NULL, length + PHYSICAL_STEP, PROT_NONE, MAP_PRIVATE | MAP_ANONYMOUS, -1, 0);
    if (at == MAP_FAILED)
        return false;
    reserved = at;
    windows = reserved + (PHYSICAL_STEP - (uintptr_t)at % PHYSICAL_STEP);
    return true;
}

void window_close(void)
{
    munmap(reserved, length + PHYSICAL_STEP);
    windows = reserved = NULL;
}

void *window_of(unsigned int function)
{
    return windows + (function == BUS_PHYSICAL ? 0 : PHYSICAL_STEP + (function - 1) * VIRTUAL_STEP);
}

bool window_has(const volatile void *address)
{
    return windows && (uintptr_t)address - (uintptr_t)windows < length;
}

void window_find(const volatile void *address, unsigned int *function, uint32_t *offset)
{
    uintptr_t at = (uintptr_t)address - (uintptr_t)windows;
    *function = BUS_PHYSICAL;
    *offset = (uint32_t)at;
    if (at < BUS_SPACE)
        return;
    if (at >= PHYSICAL_STEP && at < length && (at - PHYSICAL_STEP) % VIRTUAL_STEP < BUS_FUNCTION_SPACE) {
        *function = 1 + (unsigned int)((at - PHYSICAL_STEP) / VIRTUAL_STEP);
        *offset = (uint32_t)((at - PHYSICAL_STEP) % VIRTUAL_STEP);
        return;
    }
    if (at < PHYSICAL_STEP)
        problem("an access to offset 0x%05zx, but the registers end at 0x%05x", (size_t)at, BUS_SPACE);
    else
        problem("an access to %p, which is in no register window", (const void *)(uintptr_t)address);
    *offset = BUS_SPACE;
}
