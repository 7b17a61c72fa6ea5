/* The blocks of each controller that hold the caller's memory, by block and by address. A controller's table belongs to
   its thread, as the controller does. Other threads read it only to find out whether memory may be freed. */
#ifndef NICL_TABLE_H
#define NICL_TABLE_H

#include "by_device.h"
#include "nic82599.h"
#include "runs.h"

struct nicl_table {
    struct nicl_of of;
    uint32_t count, room;  /* blocks with the caller's memory; block numbers that `runs` has room for */
    struct nicl_runs runs; /* contains `room` blocks */
};

/* Returns the table of a controller, or null if it never held the caller's memory. */
struct nicl_table *nicl_table_of(const nic *n);
/* Records that blocks first to end - 1 hold the caller's memory, in order, and returns the controller's table, which is
   created if there is none. Returns null if memory runs out: then nothing changes. */
struct nicl_table *nicl_table_with(const nic *n, uint32_t first, uint32_t end, uint8_t *host);
/* Notes that the blocks no longer hold the caller's memory. */
void nicl_table_remove(struct nicl_table *it, uint32_t first, uint32_t end);
/* Detaches the table of a controller that is being closed. The caller's memory in it isn't freed until
   nicl_table_end. */
void nicl_table_close(struct nicl_table *it);
void nicl_table_end(struct nicl_table *it);

/* Return whether a block holds the caller's memory, and whether any of these bytes is in a block. The table may be
   null. */
bool nicl_table_has(const struct nicl_table *it, uint32_t block);
bool nicl_table_has_bytes(const struct nicl_table *it, const void *memory, size_t bytes);

/* Finds the bus address of a byte of the caller's memory. Returns false if it isn't lent to this controller. The table
   may be null. */
bool nicl_table_bus_of(const struct nicl_table *it, uint64_t address, uint64_t *bus);
/* Finds an address of the caller's memory by its low half. Returns false if there is none. */
bool nicl_table_low_half(const struct nicl_table *it, uint64_t low, uint64_t *address);

/* Locks all tables while the process forks, after all other locks. */
void nicl_table_hold(void);
void nicl_table_let_go(void);

#endif
