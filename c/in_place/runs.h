/* Indexes the caller's memory of one controller by address. A run is a range of blocks that are consecutive both on the
   bus and in the caller's memory. Its first block represents it in a tree, with heights that follow from the block
   numbers. The number of steps in a search grows with the logarithm of the number of runs. */
#ifndef NICL_RUNS_H
#define NICL_RUNS_H

#include <stdbool.h>
#include <stdint.h>

#include "nic82599.h"

enum { NICL_BLOCK = NIC_BLOCK_BYTES, NICL_MOST_BLOCKS = 65536 };

/* A block with the caller's memory. */
struct nicl_block {
    uint8_t *host;   /* the caller's memory; null: this block uses the controller's own memory */
    uint8_t *own;    /* the controller's own memory for it, kept while `host` is in use */
    uint8_t *shadow; /* if recorded: the bytes that a replay has there, or null */
    uint32_t run;    /* in a run's first block, its number of blocks; otherwise 0 */
    uint32_t left, right;
};

#define NICL_NO_RUN UINT32_MAX

struct nicl_runs {
    struct nicl_block *blocks; /* indexed by block number */
    uint32_t root;
};

/* Return the last run that begins at or below an address, the first run that ends above it, and the last run of all; or
   NICL_NO_RUN. */
uint32_t nicl_runs_at(const struct nicl_runs *it, uintptr_t address);
uint32_t nicl_runs_above(const struct nicl_runs *it, uintptr_t address);
uint32_t nicl_runs_last(const struct nicl_runs *it);

static inline uintptr_t nicl_run_begin(const struct nicl_runs *it, uint32_t run)
{
    return (uintptr_t)it->blocks[run].host;
}

static inline uintptr_t nicl_run_end(const struct nicl_runs *it, uint32_t run)
{
    return nicl_run_begin(it, run) + (uintptr_t)it->blocks[run].run * NICL_BLOCK;
}

/* Adds blocks first to end - 1, with their `host` set to consecutive memory, as a run or at the end of one. */
void nicl_runs_add(struct nicl_runs *it, uint32_t first, uint32_t end);
/* Removes blocks first to end - 1, which all belong to one run. */
void nicl_runs_remove(struct nicl_runs *it, uint32_t first, uint32_t end);

#endif
