#include "names.h"

#include <stdbool.h>

#include "../explore/engine/names.inc"
#include "text.h"

#define COUNT(list) (sizeof(list) / sizeof *(list))

enum { SPACE = 0x20000 };

/* For the word at each address, the index of its run plus 1, or 0 if there is no register. Filled at the first lookup,
   because a recording looks up every access. */
static uint8_t register_at[SPACE / 4], offset_at[SPACE / 4];

static void fill(uint8_t *places, const struct run *list, size_t count)
{
    for (size_t k = 0; k < count; k++)
        for (uint32_t i = 0; i < list[k].count; i++)
            places[(list[k].first + list[k].stride * i) / 4] = (uint8_t)(k + 1);
}

static void fill_once(void)
{
    static bool is_filled;
    if (is_filled)
        return;
    fill(register_at, registers, COUNT(registers));
    fill(offset_at, offsets, COUNT(offsets));
    is_filled = true;
}

static const char *named(const uint8_t *places, const struct run *list, uint32_t at, char *room)
{
    fill_once();
    unsigned number = at % 4 || at >= SPACE ? 0 : places[at / 4];
    if (!number)
        return NULL;
    const struct run *run = &list[number - 1];
    struct nicl_text text = nicl_text_in(room, NICL_NAME);
    nicl_put(&text, run->name);
    if (run->many) {
        nicl_put(&text, "[");
        nicl_put_number(&text, run->index + (at - run->first) / run->stride);
        nicl_put(&text, "]");
    }
    return room;
}

/* Returns the register's first address if this address is an alias, otherwise this address. */
static uint32_t first_of(uint32_t address)
{
    for (const struct alias *alias = aliases; alias < aliases + COUNT(aliases); alias++) {
        uint32_t from = address - alias->first;
        if (from < alias->stride * alias->count && from % alias->stride == 0)
            return alias->to + alias->to_stride * (from / alias->stride);
    }
    return address;
}

const char *nicl_register(uint32_t address, char room[NICL_NAME])
{
    return named(register_at, registers, first_of(address), room);
}

const char *nicl_offset(uint32_t offset, char room[NICL_NAME])
{
    return named(offset_at, offsets, offset, room);
}
