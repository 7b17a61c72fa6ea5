#include <inttypes.h>

#include "bus.h"

#define COUNT(list) (sizeof(list) / sizeof *(list))

#include "../explore/engine/names.inc"

static const struct run *find(const struct run *list, size_t count, uint32_t at, uint32_t *index)
{
    for (const struct run *run = list; run < list + count; run++) {
        uint32_t from = at - run->first;
        *index = run->index + from / run->stride;
        if (from % run->stride == 0 && from / run->stride < run->count)
            return run;
    }
    return NULL;
}

const char *bus_register_name(unsigned int function, uint32_t offset, char room[BUS_NAME])
{
    uint32_t index = 0;
    const struct run *run = function == BUS_PHYSICAL ? find(registers, COUNT(registers), offset, &index)
                                                     : find(offsets, COUNT(offsets), offset, &index);
    if (!run)
        snprintf(room, BUS_NAME, "0x%05" PRIx32 " (no register of the bench)", offset);
    else if (run->many)
        snprintf(room, BUS_NAME, "%s[%" PRIu32 "] (0x%05" PRIx32 ")", run->name, index, offset);
    else
        snprintf(room, BUS_NAME, "%s (0x%05" PRIx32 ")", run->name, offset);
    return room;
}
