/* Legacy descriptors, which the bench doesn't model. Each is translated to the advanced form before the device reads
   it, and back after the device writes it. The functions serve as the bus's callbacks `writing` and `filled`, with
   memory in place (dma_memory.h) as `of`. */
#ifndef DRIVERS_LEGACY_H
#define DRIVERS_LEGACY_H

#include <stdbool.h>
#include <stdint.h>

#include "bus.h"

void legacy_begin(void);
void legacy_end(void);

/* Translates a value that the driver writes: an SRRCTL of type 0 (legacy) becomes type 1 (one buffer). A tail write
   turns the legacy transmit descriptors before the tail into advanced ones. A descriptor that requests a checksum or a
   VLAN tag isn't translated, so the device reports a fault. */
uint32_t legacy_writing(void *memory, const struct bus_access *access, uint32_t word);
uint32_t legacy_read(void *memory, const struct bus_access *access, uint32_t word);

/* Called when a receive descriptor was filled. If the driver selected type 0 for the queue, restores the legacy format
   and the buffer address. */
void legacy_filled(void *memory, uint16_t queue, uint64_t descriptor, bool ends);

/* Returns the number of transmit descriptors translated. */
uint64_t legacy_sent(void);
uint64_t legacy_received(void);

#endif
