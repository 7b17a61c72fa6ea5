#include "legacy.h"

#include <stdlib.h>
#include <string.h>

#include "dma_memory.h"
#include "legacy_form.h"
#include "verdict.h"

static struct {
    uint64_t sent, received;
    struct {
        bool is_legacy;      /* the driver selected type 0 */
        uint64_t *addresses; /* buffer address of each slot, which the write-back overwrites */
        uint32_t slots;
    } of[BUS_QUEUES];
} legacy;

void legacy_begin(void)
{
    legacy_end();
    memset(&legacy, 0, sizeof legacy);
}

void legacy_end(void)
{
    for (unsigned int queue = 0; queue < BUS_QUEUES; queue++) {
        free(legacy.of[queue].addresses);
        legacy.of[queue].addresses = NULL;
    }
}

/* ---- rings ---- */

struct ring {
    uint64_t base;
    uint32_t slots, tail;
};

static struct ring ring_of(const struct bus *bus, bool is_transmit, uint16_t queue)
{
    uint32_t low = is_transmit ? NIC_TDBAL(queue) : NIC_RDBAL(queue);
    uint32_t length = bus_peek(bus, is_transmit ? NIC_TDLEN(queue) : NIC_RDLEN(queue));
    return (struct ring){
        .base = (uint64_t)bus_peek(bus, low + 4) << 32 | bus_peek(bus, low),
        .slots = length / BUS_SLOT,
        .tail = bus_peek(bus, is_transmit ? NIC_TDT(queue) : NIC_RDT(queue)),
    };
}

static void make_advanced(uint64_t *descriptor)
{
    struct legacy_sum sum;
    uint16_t tag;
    if (!legacy_is_transmit(descriptor[1]) || descriptor[1] & NIC_TXD_VLE)
        return;
    uint64_t advanced = legacy_transmit(descriptor[1], &sum, &tag);
    if (sum.is_wanted)
        return;
    descriptor[1] = advanced;
    legacy.sent++;
}

static bool has_room(uint16_t queue, uint32_t slots)
{
    if (legacy.of[queue].slots == slots)
        return true;
    uint64_t *addresses = calloc(slots, sizeof *addresses);
    if (!addresses)
        return false;
    free(legacy.of[queue].addresses);
    legacy.of[queue].addresses = addresses;
    legacy.of[queue].slots = slots;
    return true;
}

static void give(const struct dma_memory *memory, const struct bus_access *access, uint32_t tail)
{
    uint16_t queue = access->queue;
    struct ring ring = ring_of(memory->bus, access->is_transmit, queue);
    if (ring.tail >= ring.slots || tail >= ring.slots || (!access->is_transmit && !legacy.of[queue].is_legacy))
        return;
    if (!access->is_transmit && !has_room(queue, ring.slots)) {
        problem("out of memory for the addresses of a legacy ring");
        return;
    }
    for (uint32_t slot = ring.tail; slot != tail; slot = (slot + 1) % ring.slots) {
        uint64_t *descriptor = memory_at(memory, ring.base + (uint64_t)BUS_SLOT * slot, BUS_SLOT);
        if (descriptor && access->is_transmit)
            make_advanced(descriptor);
        else if (descriptor)
            legacy.of[queue].addresses[slot] = descriptor[0];
    }
}

/* ---- callbacks of the bus ---- */

uint32_t legacy_writing(void *memory, const struct bus_access *access, uint32_t word)
{
    if (access->part == BUS_TAIL)
        give(memory, access, word);
    if (access->part != BUS_SRRCTL)
        return word;
    legacy.of[access->queue].is_legacy = legacy_is_receive(word);
    return legacy.of[access->queue].is_legacy ? legacy_receive(word) : word;
}

uint32_t legacy_read(void *memory, const struct bus_access *access, uint32_t word)
{
    (void)memory;
    bool is_cleared = access->part == BUS_SRRCTL && legacy.of[access->queue].is_legacy;
    return is_cleared ? word & ~NIC_SRRCTL_DESCTYPE : word;
}

void legacy_filled(void *of, uint16_t queue, uint64_t at, bool ends)
{
    const struct dma_memory *memory = of;
    uint64_t *descriptor = memory_at(memory, at, BUS_SLOT);
    struct ring ring = ring_of(memory->bus, false, queue);
    uint64_t slot = (at - ring.base) / BUS_SLOT;
    (void)ends;
    if (!legacy.of[queue].is_legacy || !descriptor || slot >= legacy.of[queue].slots)
        return;
    descriptor[0] = legacy.of[queue].addresses[slot];
    descriptor[1] = legacy_written_back(descriptor[1]);
    legacy.received++;
}

uint64_t legacy_sent(void)
{
    return legacy.sent;
}

uint64_t legacy_received(void)
{
    return legacy.received;
}
