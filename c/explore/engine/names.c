#include "names.h"

#include <inttypes.h>
#include <stdbool.h>
#include <stdio.h>

#define COUNT(list) (sizeof(list) / sizeof *(list))

#include "names.inc"

/* Returns the name of the register at an address, or the address formatted by `form`. */
static const char *named(const struct run *list, size_t count, uint32_t at, const char *form, char *room)
{
    for (size_t k = 0; k < count; k++) {
        const struct run *run = &list[k];
        uint32_t from = at - run->first;
        if (from % run->stride || from / run->stride >= run->count)
            continue;
        if (run->many)
            snprintf(room, MOST_NAME, "%s[%" PRIu32 "]", run->name, run->index + from / run->stride);
        else
            snprintf(room, MOST_NAME, "%s", run->name);
        return room;
    }
    snprintf(room, MOST_NAME, form, at);
    return room;
}

uint32_t nicxi_first_address(uint32_t address, bool *is_low)
{
    *is_low = false;
    for (size_t k = 0; k < COUNT(aliases); k++) {
        const struct alias *alias = &aliases[k];
        uint32_t from = address - alias->first;
        if (from % alias->stride || from / alias->stride >= alias->count)
            continue;
        *is_low = alias->is_low;
        return alias->to + alias->to_stride * (from / alias->stride);
    }
    return address;
}

const char *nicxi_register(uint32_t address, char room[MOST_NAME])
{
    return named(registers, COUNT(registers), address, "0x%05" PRIx32, room);
}

const char *nicxi_offset(uint32_t offset, char room[MOST_NAME])
{
    return named(offsets, COUNT(offsets), offset, "0x%04" PRIx32, room);
}
