/* Lends the caller's memory. The archive's nic_exchange puts other memory into a lent block and returns the former
   memory, which the controller allocated. The table keeps that memory until the caller's is taken back. */
#include "lent.h"

#include "../library/proved.h"
#include "table.h"

/* The archive's BlockHandle and BlockHandleOut, as C sees them. */
struct memory {
    void *bytes;
};

struct range {
    uint32_t first, end;
};

uint8_t nicl_exchange(nic *n, uint32_t block, struct memory memory, struct memory *former);

/* Defined by the explorer (c/explore/engine/device.c) if it is linked: returns whether a search is using this
   controller. */
__attribute__((weak)) bool nicxi_refuses_memory(const nic *n);

/* Puts other memory into a lent block. Returns the block's former memory, or null if the library hits an internal
   fault. Does nothing and returns null if `bytes` is null, as after an earlier fault. */
static uint8_t *exchange(nic *n, uint32_t block, uint8_t *bytes)
{
    struct memory former = {NULL};
    if (!bytes)
        return NULL;
    nicl_exchange(n, block, (struct memory){bytes}, &former);
    return former.bytes;
}

/* Puts the caller's memory into a block, and the block's own memory into the table. Returns whether it succeeded. An
   earlier exchange that should have taken the caller's memory out may have failed before it did anything. Then the
   exchange here returns the caller's memory, and the table still holds the block's own memory. */
static bool put_in(nic *n, struct nicl_table *it, uint32_t number)
{
    struct nicl_block *block = &it->runs.blocks[number];
    uint8_t *former = exchange(n, number, block->host);
    if (former && former != block->host)
        block->own = former;
    return former;
}

/* Puts a block's own memory back, and removes it from the table. Returns whether it succeeded. If an earlier exchange
   did this and only its result was lost, the block already has its own memory, and the exchange here returns it. */
static bool take_out(nic *n, struct nicl_table *it, uint32_t number)
{
    bool is_out = exchange(n, number, it->runs.blocks[number].own);
    if (is_out)
        it->runs.blocks[number].own = NULL;
    return is_out;
}

static bool is_whole(uint64_t bus, size_t bytes)
{
    return bus % NICL_BLOCK == 0 && bytes % NICL_BLOCK == 0;
}

/* Computes the blocks at these bus addresses. Returns false if no controller can have blocks with these numbers. */
static bool blocks_of(uint64_t bus, size_t bytes, struct range *range)
{
    if (bus / NICL_BLOCK > NICL_MOST_BLOCKS || bytes / NICL_BLOCK > NICL_MOST_BLOCKS - bus / NICL_BLOCK)
        return false;
    range->first = (uint32_t)(bus / NICL_BLOCK);
    range->end = range->first + (uint32_t)(bytes / NICL_BLOCK);
    return true;
}

/* Takes the blocks of the range back. Returns BROKEN if the controller is broken, otherwise DONE. */
static uint8_t take_each(nic *n, struct range range)
{
    uint8_t status = NIC_DONE;
    for (uint32_t block = range.first; block < range.end; block++)
        if (nicl_take(n, block) == NIC_BROKEN)
            status = NIC_BROKEN;
    return status;
}

/* Lends all blocks of the range, or none. */
static uint8_t lend_each(nic *n, struct range range)
{
    for (uint32_t block = range.first; block < range.end; block++) {
        uint8_t status = nicl_lend(n, block);
        if (status != NIC_DONE) {
            take_each(n, (struct range){range.first, block});
            return status;
        }
    }
    return NIC_DONE;
}

uint8_t nicl_lend_memory(nic *n, uint64_t bus, void *memory, size_t bytes)
{
    struct range range;
    if (!is_whole(bus, bytes) || (nicxi_refuses_memory && nicxi_refuses_memory(n)))
        return NIC_BAD_MEMORY;
    if (!blocks_of(bus, bytes, &range))
        return NIC_NO_BLOCK;
    if (!bytes)
        return NIC_DONE;
    if (nicl_table_has_bytes(nicl_table_of(n), memory, bytes))
        return NIC_BAD_MEMORY;
    uint8_t status = lend_each(n, range);
    if (status != NIC_DONE)
        return status;
    struct nicl_table *it = nicl_table_with(n, range.first, range.end, memory);
    if (!it) {
        take_each(n, range);
        return NIC_OUT_OF_MEMORY;
    }
    for (uint32_t block = range.first; block < range.end; block++)
        if (!put_in(n, it, block))
            status = NIC_BROKEN;
    return status;
}

/* Puts the blocks' own memory back in place of the caller's. If a fault of the library keeps the caller's memory in a
   block, the table keeps all blocks, so that freeing the controller doesn't free that memory. */
static void end_in_place(nic *n, struct nicl_table *it, struct range range)
{
    bool are_out = true;
    for (uint32_t block = range.first; block < range.end; block++)
        are_out = take_out(n, it, block) && are_out;
    if (are_out)
        nicl_table_remove(it, range.first, range.end);
}

uint8_t nicl_unlend_memory(nic *n, uint64_t bus, size_t bytes)
{
    struct range range;
    struct nicl_table *it = nicl_table_of(n);
    if (!is_whole(bus, bytes))
        return NIC_BAD_MEMORY;
    if (!blocks_of(bus, bytes, &range))
        return NIC_NOT_LENT;
    for (uint32_t block = range.first; block < range.end; block++)
        if (!nicl_table_has(it, block))
            return NIC_NOT_LENT;
    if (bytes)
        end_in_place(n, it, range);
    return take_each(n, range);
}

uint8_t nicl_take_in_place(nic *n, uint32_t block)
{
    struct nicl_table *it = nicl_table_of(n);
    if (nicl_table_has(it, block))
        end_in_place(n, it, (struct range){block, block + 1});
    return nicl_take(n, block);
}

void nicl_free_in_place(nic n)
{
    struct nicl_table *it = nicl_table_of(&n);
    if (it) {
        for (uint32_t block = 0; block < it->room; block++)
            if (nicl_table_has(it, block))
                take_out(&n, it, block);
        nicl_table_close(it);
    }
    nicl_free(n);
    if (it)
        nicl_table_end(it);
}

/* Puts the caller's memory back into a block, with the bytes from the snapshot. If the snapshot doesn't lend the block,
   the caller gets the memory back. A refused restore leaves the bytes in the caller's memory. */
static void back_in_place(nic *n, struct nicl_table *it, uint32_t number, bool is_restored)
{
    uint8_t *host = it->runs.blocks[number].host;
    if (is_restored && nicl_dma_read(n, (uint64_t)number * NICL_BLOCK, host, NICL_BLOCK) != NIC_DONE)
        nicl_table_remove(it, number, number + 1);
    else
        put_in(n, it, number);
}

/* Takes the caller's memory out during the restore, because the restored controller may have different memory of its
   own, and fewer blocks. */
uint8_t nicl_restore_in_place(nic *n, const nic_kept *kept)
{
    struct nicl_table *it = nicl_table_of(n);
    uint32_t blocks = it && it->count ? it->room : 0;
    for (uint32_t block = 0; block < blocks; block++)
        if (nicl_table_has(it, block))
            take_out(n, it, block);
    uint8_t status = nicl_restore(n, kept);
    while (blocks--)
        if (nicl_table_has(it, blocks))
            back_in_place(n, it, blocks, status == NIC_DONE);
    return status;
}
