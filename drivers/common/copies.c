/* DMA memory in two copies, the driver's and the bench's. */
#include <inttypes.h>
#include <string.h>

#include "dma_memory.h"

#define HEAD_BYTES 4

/* the second half of a transmit descriptor */
#define DATA_LENGTH(half) ((half)&0xFFFF)
#define DATA_TYPE(half) ((half) >> 20 & 0xF)
#define DATA 3

struct ring {
    uint64_t base;
    uint32_t slots;
};

static void refused(struct dma_memory *it, const char *what, uint64_t bus, size_t length)
{
    it->refusals++;
    fprintf(stderr, "bus: %s at 0x%" PRIx64 ", %zu bytes: not lent\n", what, bus, length);
}

void copies_to_device(struct dma_memory *it, uint64_t bus, size_t length)
{
    const void *from = memory_at(it, bus, length);
    it->to_device += length;
    if (!from || nic_dma_write(bus_device(it->bus), bus, from, length) != NIC_DONE)
        refused(it, "copying to the bench", bus, length);
}

void copies_to_driver(struct dma_memory *it, uint64_t bus, size_t length)
{
    void *to = memory_at(it, bus, length);
    it->to_driver += length;
    if (!to || nic_dma_read(bus_device(it->bus), bus, to, length) != NIC_DONE)
        refused(it, "copying from the bench", bus, length);
}

/* ---- rings ---- */

static struct ring ring_at(const struct bus *bus, bool is_transmit, uint16_t queue)
{
    uint64_t high = bus_peek(bus, is_transmit ? NIC_TDBAH(queue) : NIC_RDBAH(queue));
    uint64_t low = bus_peek(bus, is_transmit ? NIC_TDBAL(queue) : NIC_RDBAL(queue));
    uint32_t bytes = bus_peek(bus, is_transmit ? NIC_TDLEN(queue) : NIC_RDLEN(queue));
    return (struct ring){high << 32 | low, bytes / BUS_SLOT};
}

static uint64_t slot_at(struct ring ring, uint32_t slot)
{
    return ring.base + (uint64_t)BUS_SLOT * slot;
}

/* Copies to the device the buffers of the data descriptors in slots `from` up to, but not including, `to`. */
static void give_buffers(struct dma_memory *it, struct ring ring, uint32_t from, uint32_t to)
{
    for (uint32_t slot = from; slot != to; slot = slot + 1 < ring.slots ? slot + 1 : 0) {
        uint64_t halves[2];
        const void *descriptor = memory_at(it, slot_at(ring, slot), BUS_SLOT);
        if (!descriptor)
            return; /* the copy of the descriptors was refused */
        memcpy(halves, descriptor, sizeof halves);
        if (DATA_TYPE(halves[1]) == DATA)
            copies_to_device(it, halves[0], DATA_LENGTH(halves[1]));
    }
}

static void give_slots(struct dma_memory *it, struct ring ring, uint32_t from, uint32_t to)
{
    if (from > to) {
        copies_to_device(it, slot_at(ring, from), (size_t)BUS_SLOT * (ring.slots - from));
        from = 0;
    }
    if (from < to)
        copies_to_device(it, slot_at(ring, from), (size_t)BUS_SLOT * (to - from));
}

static void give(struct dma_memory *it, bool is_transmit, uint16_t queue, uint32_t tail)
{
    struct ring ring = ring_at(it->bus, is_transmit, queue);
    uint32_t from = it->next[is_transmit][queue];
    it->next[is_transmit][queue] = tail;
    if (from == tail)
        return;
    if (from >= ring.slots || tail >= ring.slots) {
        refused(it, "tail outside its ring", ring.base, (size_t)BUS_SLOT * ring.slots);
        return;
    }
    if (is_transmit)
        give_buffers(it, ring, from, tail);
    give_slots(it, ring, from, tail);
}

/* ---- callbacks of the bus ---- */

uint32_t copies_writing(void *memory, const struct bus_access *access, uint32_t word)
{
    struct dma_memory *it = memory;
    if (access->part == BUS_TAIL)
        give(it, access->is_transmit, access->queue, word);
    if (access->part == BUS_HEAD)
        it->next[access->is_transmit][access->queue] = word;
    return word;
}

void copies_reset(void *memory, uint16_t queue)
{
    struct dma_memory *it = memory;
    it->next[0][queue] = it->next[1][queue] = 0;
}

void copies_wrote(void *memory, uint64_t bus, size_t length)
{
    copies_to_driver(memory, bus, length);
}

void copies_wrote_back(void *memory, uint16_t queue, uint64_t bus)
{
    struct dma_memory *it = memory;
    struct ring ring = ring_at(it->bus, true, queue);
    bool is_slot = bus >= ring.base && bus < slot_at(ring, ring.slots);
    copies_to_driver(it, bus, is_slot ? BUS_SLOT : HEAD_BYTES);
}
