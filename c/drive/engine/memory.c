/* The driver's memory: pieces of DMA memory, and memory of its own. A DMA piece ends at the end of a block, and the
   block after it isn't lent. Allocations of both kinds are counted, and both can be made to fail. */
#include <stdio.h>
#include <string.h>

#include "drive.h"

enum { ALIGNED = 128, MOST_BYTES = 524288, OWN_ROOM = 1 << 20, OWN_HEAD = 16, OWN_SIZE = 8 };

static union {
    uint64_t aligned;
    uint8_t bytes[OWN_ROOM];
} own;

void nicd_memory_begin(void)
{
    memset(nicd.pieces, 0, sizeof nicd.pieces);
    nicd.taken = nicd.own_taken = nicd.allocations = nicd.refuse = 0;
    nicd.own_used = 0;
    nicd.newest = NULL;
    nicd_in_place_begin();
}

static bool is_refused(void)
{
    return ++nicd.allocations == nicd.refuse;
}

/* Whether no piece owns blocks first .. first + count, including the block after the last. */
static bool is_free(uint32_t first, uint32_t count)
{
    for (unsigned k = 0; k < MOST_PIECES; k++) {
        const struct piece *piece = &nicd.pieces[k];
        if (piece->blocks && first <= piece->first + piece->blocks && piece->first <= first + count)
            return false;
    }
    return first + count < OTHERS;
}

/* Finds room for a piece. Block 0 is never used, so no address is 0. */
static struct piece *place(uint32_t blocks)
{
    struct piece *piece = NULL;
    for (unsigned k = 0; k < MOST_PIECES && !piece; k++)
        if (!nicd.pieces[k].blocks)
            piece = &nicd.pieces[k];
    if (!piece)
        return NULL;
    for (uint32_t first = 1; first + blocks < OTHERS; first++)
        if (is_free(first, blocks)) {
            piece->first = first;
            piece->blocks = blocks;
            return piece;
        }
    return NULL;
}

static void name_asker(struct piece *piece)
{
    unsigned self = nicxo_thread();
    const char *name = nicd.doing && nicd.doer == self ? nicd_call_name(nicd.doing)
                       : self != NICXO_NO_THREAD       ? nicxo_thread_name(self)
                                                       : "the card";
    snprintf(piece->by, sizeof piece->by, "%s", name);
}

uint64_t nicd_dma_alloc(size_t bytes)
{
    if (!bytes || bytes > MOST_BYTES)
        nicd_failed("nicd_dma_alloc is called with %lu bytes: it allocates 1 to 524,288", (unsigned long)bytes);
    if (is_refused())
        return 0;
    size_t rounded = (bytes + ALIGNED - 1) / ALIGNED * ALIGNED;
    uint32_t blocks = (uint32_t)((rounded + NIC_BLOCK_BYTES - 1) / NIC_BLOCK_BYTES);
    struct piece *piece = place(blocks);
    if (!piece)
        return 0;
    nicd.taken++;
    piece->bus = (uint64_t)(piece->first + blocks) * NIC_BLOCK_BYTES - rounded;
    piece->bytes = (uint32_t)bytes;
    piece->is_in_place = false;
    name_asker(piece);
    nicd.newest = piece;
    uint64_t bus = piece->bus;
    for (uint32_t k = 0; k < blocks; k++)
        nicx_lend(piece->first + k);
    return bus;
}

void nicd_dma_free(uint64_t bus)
{
    struct piece *piece = NULL;
    for (unsigned k = 0; k < MOST_PIECES; k++)
        if (nicd.pieces[k].blocks && nicd.pieces[k].bus == bus)
            piece = &nicd.pieces[k];
    if (!piece) {
        nicd_failed("nicd_dma_free of 0x%llx, which nicd_dma_alloc didn't return", (unsigned long long)bus);
        return;
    }
    uint32_t first = piece->first, blocks = piece->blocks;
    nicxo_publish(); /* while the piece is still lent */
    piece->bus = 0;
    for (uint32_t k = 0; k < blocks; k++)
        nicx_take(first + k);
    nicd_in_place_end(piece);
    piece->blocks = 0;
    nicd.taken--;
}

bool nicd_memory_has(uint64_t bus)
{
    for (unsigned k = 0; k < MOST_PIECES; k++) {
        const struct piece *piece = &nicd.pieces[k];
        if (piece->blocks && bus / NIC_BLOCK_BYTES >= piece->first &&
            bus / NIC_BLOCK_BYTES < piece->first + piece->blocks)
            return true;
    }
    return false;
}

/* Stores the size in front of the memory. Freeing only updates the count: the memory isn't reused. */
void *nicd_alloc(size_t bytes)
{
    size_t whole = OWN_HEAD + (bytes + OWN_HEAD - 1) / OWN_HEAD * OWN_HEAD;
    if (is_refused() || bytes > OWN_ROOM || whole > OWN_ROOM - nicd.own_used)
        return NULL;
    uint8_t *piece = own.bytes + nicd.own_used;
    memset(piece, 0, whole);
    piece[0] = 1;
    memcpy(piece + OWN_SIZE, &bytes, sizeof bytes);
    nicd.own_used += whole;
    nicd.own_taken++;
    return piece + OWN_HEAD;
}

void nicd_free(void *memory)
{
    uint8_t *piece = (uint8_t *)memory - OWN_HEAD;
    if (!memory)
        return;
    if (piece < own.bytes || piece >= own.bytes + nicd.own_used || piece[0] != 1) {
        nicd_failed("nicd_free of memory that nicd_alloc didn't return, or that is already freed");
        return;
    }
    piece[0] = 0;
    nicd.own_taken--;
}

uint32_t nicd_memory_taken(void)
{
    return nicd.taken + nicd.own_taken;
}

const struct piece *nicd_memory_newest(void)
{
    return nicd.newest;
}

const char *nicd_memory_near(uint64_t bus)
{
    static char words[96];
    const struct piece *below = NULL;
    for (unsigned k = 0; k < MOST_PIECES; k++) {
        const struct piece *piece = &nicd.pieces[k];
        if (piece->blocks && piece->bus <= bus && (!below || piece->bus > below->bus))
            below = piece;
    }
    if (!below)
        return "no nicd_dma_alloc allocation is below it";
    snprintf(words, sizeof words, "%llu bytes past the end of the %u bytes at 0x%llx, which %s allocated",
             (unsigned long long)(bus - below->bus - below->bytes), (unsigned)below->bytes,
             (unsigned long long)below->bus, below->by);
    return words;
}

/* Returns the size of the first piece from nicd_alloc that hasn't been freed. */
static size_t first_own(void)
{
    size_t size = 0;
    for (size_t at = 0; at < nicd.own_used; at += OWN_HEAD + (size + OWN_HEAD - 1) / OWN_HEAD * OWN_HEAD) {
        memcpy(&size, own.bytes + at + OWN_SIZE, sizeof size);
        if (own.bytes[at] == 1)
            return size;
    }
    return 0;
}

const char *nicd_memory_left(void)
{
    const struct piece *piece = nicd.pieces;
    while (nicd.taken && !piece->blocks)
        piece++;
    if (nicd.taken)
        nicd_note("%u allocation%s of DMA memory %s freed: %s%u bytes at 0x%llx, which %s allocated",
                  (unsigned)nicd.taken, nicd.taken == 1 ? "" : "s", nicd.taken == 1 ? "wasn't" : "weren't",
                  nicd.taken == 1 ? "" : "the first has ", (unsigned)piece->bytes, (unsigned long long)piece->bus,
                  piece->by);
    else if (nicd.own_taken)
        nicd_note("%u nicd_alloc allocation%s %s freed, for example one of %lu bytes", (unsigned)nicd.own_taken,
                  nicd.own_taken == 1 ? "" : "s", nicd.own_taken == 1 ? "wasn't" : "weren't",
                  (unsigned long)first_own());
    return nicd.taken || nicd.own_taken ? nicd.fault : NULL;
}
