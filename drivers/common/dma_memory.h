/* DMA memory, of one of two kinds:

     in place   The device works in the driver's memory, and each device step sees what the driver stored before it.
     copied     For memory that another process may store into during a step: copies.c keeps the driver's copy and the
                bench's up to date. A tail write copies its descriptors, and the buffers of transmit descriptors, to the
                device. Each range that a device step reports as written is copied to the driver. The device doesn't see
                a change that the driver makes without a tail write. */
#ifndef DRIVERS_DMA_MEMORY_H
#define DRIVERS_DMA_MEMORY_H

#include <stdbool.h>
#include <stddef.h>
#include <stdint.h>

#include "bus.h"

#define MEMORY_RANGES 64

struct lent_range {
    uint64_t bus;
    unsigned char *host;
    size_t length;
};

struct dma_memory {
    struct bus *bus;
    bool is_copied;
    struct lent_range ranges[MEMORY_RANGES];
    unsigned int range_count;
    /* copied only: per side, the slot up to which descriptors were copied; bytes copied; copies refused */
    uint32_t next[2][BUS_QUEUES];
    uint64_t to_device, to_driver, refusals;
};

/* Starts with no memory lent and without a bus. Set `bus` afterwards, before memory is lent. */
void memory_begin(struct dma_memory *it, bool is_copied);

/* Sets the bus callbacks that the memory needs, with `it` as their `of`. An existing `writing` or `reset` stays; with
   copied memory it must call copies_writing or copies_reset. */
void memory_calls(struct dma_memory *it, struct bus_calls *calls);

/* Lends `length` bytes to the device, with the byte at `host` at bus address `bus`. Both `bus` and `length` are
   multiples of 2,048, and bus addresses end at 128 MiB. Returns false if they don't fit, if the range is already lent
   (in place: if these bytes are, even at another address), or if memory runs out. */
bool memory_lend(struct dma_memory *it, uint64_t bus, void *host, size_t length);

/* Returns these bytes' address in this process, or null unless a single contiguous range that was lent contains
   them. */
void *memory_at(const struct dma_memory *it, uint64_t bus, size_t length);

/* ---- copies.c ---- */

/* Copies a range. If it isn't lent, the copy is refused, counted, and reported on standard error. */
void copies_to_device(struct dma_memory *it, uint64_t bus, size_t length);
void copies_to_driver(struct dma_memory *it, uint64_t bus, size_t length);

/* Callbacks of the bus. A tail write copies the descriptors handed over since the last tail write to the device. A head
   write or a reset sets where the next copy begins. */
uint32_t copies_writing(void *memory, const struct bus_access *access, uint32_t word);
void copies_reset(void *memory, uint16_t queue);
void copies_wrote(void *memory, uint64_t bus, size_t length);
void copies_wrote_back(void *memory, uint16_t queue, uint64_t bus);

#endif
