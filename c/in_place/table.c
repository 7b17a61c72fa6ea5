#define _POSIX_C_SOURCE 200809L
#include "table.h"

#include <pthread.h>
#include <stdlib.h>
#include <string.h>

#include "starts.h"

/* Held to change the tables, the starts of blocks and the bounds, and to read entries of other threads. */
static pthread_mutex_t lock = PTHREAD_MUTEX_INITIALIZER;
static struct nicl_by_device tables;
/* Number of tables. nicl_table_of reads it on every call. */
static size_t count;

/* All callers' memory is at `lowest` or above, and below `beyond`. */
static uintptr_t lowest = UINTPTR_MAX, beyond;

void rattle_dealloc(void *piece);
void nicl_dealloc(void *piece);

void nicl_table_hold(void)
{
    pthread_mutex_lock(&lock);
}

void nicl_table_let_go(void)
{
    pthread_mutex_unlock(&lock);
}

/* --- by address --- */

bool nicl_table_has_bytes(const struct nicl_table *it, const void *memory, size_t bytes)
{
    uint32_t run = it ? nicl_runs_above(&it->runs, (uintptr_t)memory) : NICL_NO_RUN;
    return run != NICL_NO_RUN && nicl_run_begin(&it->runs, run) < (uintptr_t)memory + bytes;
}

bool nicl_table_bus_of(const struct nicl_table *it, uint64_t address, uint64_t *bus)
{
    uint32_t run = it && address <= UINTPTR_MAX ? nicl_runs_at(&it->runs, (uintptr_t)address) : NICL_NO_RUN;
    if (run == NICL_NO_RUN || address >= nicl_run_end(&it->runs, run))
        return false;
    *bus = (uint64_t)run * NICL_BLOCK + (address - nicl_run_begin(&it->runs, run));
    return true;
}

/* Memory may be on both sides of a 4 GiB boundary, so this tries the high halves of the lowest and of the highest
   address. */
bool nicl_table_low_half(const struct nicl_table *it, uint64_t low, uint64_t *address)
{
    uint64_t bus;
    for (int side = 0; it && it->count && low <= UINT32_MAX && side < 2; side++) {
        uint64_t at = side ? nicl_run_end(&it->runs, nicl_runs_last(&it->runs)) - 1u
                           : nicl_run_begin(&it->runs, nicl_runs_above(&it->runs, 0));
        *address = (at & ~(uint64_t)UINT32_MAX) | low;
        if (*address != low && nicl_table_bus_of(it, *address, &bus))
            return true;
    }
    return false;
}

/* Extends the bounds by the caller's memory from one address up to another. They are reset when no caller's memory is
   left. */
static void widen(uintptr_t from, uintptr_t to)
{
    if (from < lowest)
        __atomic_store_n(&lowest, from, __ATOMIC_RELAXED);
    if (to > beyond)
        __atomic_store_n(&beyond, to, __ATOMIC_RELAXED);
}

static void forget_start(uint8_t *host)
{
    nicl_starts_remove((uintptr_t)host);
    if (!nicl_starts_is_empty())
        return;
    __atomic_store_n(&lowest, UINTPTR_MAX, __ATOMIC_RELAXED);
    __atomic_store_n(&beyond, (uintptr_t)0, __ATOMIC_RELAXED);
}

static __attribute__((noinline)) bool is_callers(uintptr_t address)
{
    nicl_table_hold();
    bool is_there = nicl_starts_has(address);
    nicl_table_let_go();
    return is_there;
}

/* Called by the archive to free memory. The archive would free the caller's memory like its own, so this skips it. No
   caller's memory is outside the bounds, even while another thread changes the bounds. */
void nicl_dealloc(void *piece)
{
    uintptr_t address = (uintptr_t)piece;
    if (address >= __atomic_load_n(&lowest, __ATOMIC_RELAXED) && address < __atomic_load_n(&beyond, __ATOMIC_RELAXED) &&
        is_callers(address))
        return;
    rattle_dealloc(piece);
}

/* --- tables --- */

static void note_count(void)
{
    __atomic_store_n(&count, tables.count, __ATOMIC_RELAXED);
}

/* If there are no tables, no call waits for the lock. A relaxed load is enough: a thread sees the tables that it
   created. */
struct nicl_table *nicl_table_of(const nic *n)
{
    if (!__atomic_load_n(&count, __ATOMIC_RELAXED))
        return NULL;
    nicl_table_hold();
    struct nicl_table *it = (struct nicl_table *)nicl_by_device_find(&tables, n->device);
    nicl_table_let_go();
    return it;
}

static struct nicl_table *made(const nic *n)
{
    struct nicl_table *it = calloc(1, sizeof *it);
    if (!it)
        return NULL;
    it->of.device = n->device;
    it->runs.root = NICL_NO_RUN;
    nicl_table_hold();
    nicl_by_device_add(&tables, &it->of);
    note_count();
    nicl_table_let_go();
    return it;
}

/* Makes room for this many blocks or more. */
static bool grows(struct nicl_table *it, uint32_t room)
{
    struct nicl_block *more = realloc(it->runs.blocks, room * sizeof *more);
    if (!more)
        return false;
    it->runs.blocks = more;
    for (uint32_t block = it->room; block < room; block++)
        more[block] = (struct nicl_block){NULL, NULL, NULL, 0, 0, 0};
    it->room = room;
    return true;
}

/* Makes room for the blocks below a number, at least doubling the room. */
static bool has_room(struct nicl_table *it, uint32_t blocks)
{
    uint32_t twice = it->room < NICL_MOST_BLOCKS / 2 ? 2 * it->room : NICL_MOST_BLOCKS;
    return blocks <= it->room || grows(it, blocks > twice ? blocks : twice);
}

static void add(struct nicl_table *it, uint32_t first, uint32_t end, uint8_t *host)
{
    for (uint32_t block = first; block < end; block++, host += NICL_BLOCK) {
        it->runs.blocks[block].host = host;
        nicl_starts_add((uintptr_t)host);
    }
    widen((uintptr_t)it->runs.blocks[first].host, (uintptr_t)host);
    nicl_runs_add(&it->runs, first, end);
    it->count += end - first;
}

struct nicl_table *nicl_table_with(const nic *n, uint32_t first, uint32_t end, uint8_t *host)
{
    struct nicl_table *it = nicl_table_of(n);
    if (!it)
        it = made(n);
    if (!it || !has_room(it, end))
        return NULL;
    nicl_table_hold();
    bool is_there = nicl_starts_reserve(end - first);
    if (is_there)
        add(it, first, end, host);
    nicl_table_let_go();
    return is_there ? it : NULL;
}

bool nicl_table_has(const struct nicl_table *it, uint32_t block)
{
    return it && block < it->room && it->runs.blocks[block].host;
}

/* Notes that blocks first to end - 1, which all belong to one run, have the controller's own memory again. */
static void forget(struct nicl_table *it, uint32_t first, uint32_t end)
{
    nicl_table_hold();
    nicl_runs_remove(&it->runs, first, end);
    it->count -= end - first;
    for (uint32_t block = first; block < end; block++)
        forget_start(it->runs.blocks[block].host);
    nicl_table_let_go();
    for (uint32_t block = first; block < end; block++) {
        struct nicl_block *at = &it->runs.blocks[block];
        free(at->shadow);
        at->host = at->own = at->shadow = NULL;
    }
}

/* Returns the block after the last block of the run that contains a block. */
static uint32_t run_end(const struct nicl_table *it, uint32_t block)
{
    uint32_t run = nicl_runs_at(&it->runs, (uintptr_t)it->runs.blocks[block].host);
    return run + it->runs.blocks[run].run;
}

void nicl_table_remove(struct nicl_table *it, uint32_t first, uint32_t end)
{
    while (first < end) {
        uint32_t of_run = run_end(it, first), upto = of_run < end ? of_run : end;
        forget(it, first, upto);
        first = upto;
    }
}

void nicl_table_close(struct nicl_table *it)
{
    nicl_table_hold();
    nicl_by_device_remove(&tables, &it->of);
    note_count();
    nicl_table_let_go();
}

void nicl_table_end(struct nicl_table *it)
{
    uint32_t run;
    while ((run = nicl_runs_above(&it->runs, 0)) != NICL_NO_RUN)
        nicl_table_remove(it, run, run_end(it, run));
    free(it->runs.blocks);
    free(it);
}
