/* Records which bytes of this process are lent, by bus address. */
#include "dma_memory.h"

void memory_begin(struct dma_memory *it, bool is_copied)
{
    *it = (struct dma_memory){.is_copied = is_copied};
}

static void *at(void *memory, uint64_t bus, size_t length)
{
    return memory_at(memory, bus, length);
}

void memory_calls(struct dma_memory *it, struct bus_calls *calls)
{
    calls->of = it;
    calls->at = at;
    if (!it->is_copied)
        return;
    if (!calls->writing)
        calls->writing = copies_writing;
    if (!calls->reset)
        calls->reset = copies_reset;
    calls->wrote = copies_wrote;
    calls->wrote_back = copies_wrote_back;
}

/* Returns the last range if these bytes continue it, both in the process and on the bus; otherwise null. */
static struct lent_range *continued(struct dma_memory *it, uint64_t bus, const unsigned char *host)
{
    struct lent_range *last = it->range_count ? &it->ranges[it->range_count - 1] : NULL;
    return last && last->bus + last->length == bus && last->host + last->length == host ? last : NULL;
}

static void add(struct dma_memory *it, uint64_t bus, void *host, size_t length)
{
    struct lent_range *last = continued(it, bus, host);
    if (last)
        last->length += length;
    else
        it->ranges[it->range_count++] = (struct lent_range){bus, host, length};
}

static bool lend_in_place(const struct dma_memory *it, uint64_t bus, void *host, size_t length)
{
    return nic_lend_memory(bus_device(it->bus), bus, host, length) == NIC_DONE;
}

/* Lends blocks of the bench's own memory, which copies fill. */
static bool lend_blocks(const struct dma_memory *it, uint64_t bus, size_t length)
{
    if (bus % NIC_BLOCK_BYTES || length % NIC_BLOCK_BYTES)
        return false;
    for (uint64_t block = bus / NIC_BLOCK_BYTES; block < (bus + length) / NIC_BLOCK_BYTES; block++)
        if (block > UINT32_MAX || nic_lend(bus_device(it->bus), (uint32_t)block) != NIC_DONE)
            return false;
    return true;
}

bool memory_lend(struct dma_memory *it, uint64_t bus, void *host, size_t length)
{
    if (it->range_count == MEMORY_RANGES && !continued(it, bus, host))
        return false;
    if (!(it->is_copied ? lend_blocks(it, bus, length) : lend_in_place(it, bus, host, length)))
        return false;
    add(it, bus, host, length);
    return true;
}

void *memory_at(const struct dma_memory *it, uint64_t bus, size_t length)
{
    for (unsigned int i = 0; i < it->range_count; i++) {
        const struct lent_range *range = &it->ranges[i];
        if (bus >= range->bus && length <= range->length && bus - range->bus <= range->length - length)
            return range->host + (bus - range->bus);
    }
    return NULL;
}
