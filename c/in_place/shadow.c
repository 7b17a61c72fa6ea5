#include "shadow.h"

#include <stdlib.h>
#include <string.h>

#include "table.h"

/* A part of a block that holds the caller's memory. */
struct part {
    struct nicl_block *block;
    uint64_t bus; /* bus address of the block */
    uint32_t from, to;
};

typedef void look(const struct part *part, nicl_poke *poke, void *argument);

/* Calls `look` for each block's part of the range. A block's shadow begins as zeros, as nic_lend leaves the block in a
   replay. */
static void each_part(const nic *n, uint64_t bus, uint64_t length, look *look, nicl_poke *poke, void *argument)
{
    struct nicl_table *it = nicl_table_of(n);
    while (it && length && bus / NICL_BLOCK < it->room) {
        uint32_t number = (uint32_t)(bus / NICL_BLOCK), from = (uint32_t)(bus % NICL_BLOCK);
        uint32_t more = length < NICL_BLOCK - from ? (uint32_t)length : NICL_BLOCK - from;
        struct part part = {&it->runs.blocks[number], bus - from, from, from + more};
        if (part.block->host) {
            if (!part.block->shadow)
                part.block->shadow = calloc(1, NICL_BLOCK);
            look(&part, poke, argument);
        }
        length -= more;
        bus += more;
    }
}

/* If there is no memory for a shadow, calls `poke` for every 16-byte unit. */
static void poke_part(const struct part *part, nicl_poke *poke, void *argument)
{
    const uint8_t *host = part->block->host;
    uint8_t *shadow = part->block->shadow;
    for (uint32_t at = part->from / NICL_UNIT * NICL_UNIT; at < part->to; at += NICL_UNIT) {
        if (shadow && memcmp(shadow + at, host + at, NICL_UNIT) == 0)
            continue;
        poke(argument, part->bus + at, host + at);
        if (shadow)
            memcpy(shadow + at, host + at, NICL_UNIT);
    }
}

static void note_part(const struct part *part, nicl_poke *poke, void *argument)
{
    (void)poke, (void)argument;
    if (part->block->shadow)
        memcpy(part->block->shadow + part->from, part->block->host + part->from, part->to - part->from);
}

void nicl_shadow_poke(const nic *n, uint64_t bus, uint64_t length, nicl_poke *poke, void *argument)
{
    each_part(n, bus, length, poke_part, poke, argument);
}

void nicl_shadow_note(const nic *n, uint64_t bus, uint64_t length)
{
    each_part(n, bus, length, note_part, NULL, NULL);
}
