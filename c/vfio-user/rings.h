/* Maps guests' memory of any size into the device's 128 MiB of bus addresses. The guest sees its own addresses in base
   registers and descriptors; the device sees the device's addresses. In the device's memory, each ring has blocks for
   its length, and each queue has blocks for its current buffer. The first descriptors that a tail hands over are read
   immediately, as the card prefetches; later ones are read when the device reaches them. A buffer is read when the
   device acts on it.

   A ring belongs to the client that set it up: its descriptors and buffers are in that client's memory. When another
   client writes the base or the length, everything about the ring is discarded. When another client writes the tail or
   the buffer size or enables the ring, or when the ring's own client leaves, the ring stops: the queue is disabled, and
   any further fetch by the device is a fault.

   Only the 2 KB of a ring around its next slot are lent to the device. So the number of rings bounds the cost of
   keeping, copying or examining the device.

   Everything is copied and nothing is lent in place, because the guest runs during calls. What the guest polls is
   written last, with a release store: a frame's bytes first, then DD. */
#ifndef RINGS_H
#define RINGS_H

#include <stdbool.h>
#include <stddef.h>
#include <stdint.h>

#include "budget.h"
#include "bus.h"
#include "dma.h"
#include "nic82599.h"
#include "offload.h"

#define RINGS_QUEUES 128
#define RINGS_BLOCKS 65536u
#define RING_BYTES_MOST 0x80000u /* 32,768 descriptors: the card's maximum */
#define RINGS_AHEAD 64u          /* descriptors of a ring that are read ahead */

/* Reports a failed access or a driver's mistake. `what` says what happened; the report continues with "at" and the
   address. `by` is the client whose driver did it, and `where` is an address in the memory of the ring's client. */
typedef void rings_refused(void *of, const char *what, struct dma by, uint16_t queue, struct dma_address where,
                           size_t length);

struct rings_options {
    nic *device;
    struct budget *budget; /* charged for copied bytes */
    rings_refused *refused;
    void *of;
    struct offload *offload; /* null: the device gets descriptors unchanged */
    bool has_legacy;         /* convert legacy descriptors to advanced ones for the device */
    bool is_recorded;        /* add the guest's addresses as notes to the device's recording */
};

struct rings_counts {
    uint64_t descriptors, frames_bytes, refused, tails_outside, tails_off, without_room, zeros, stopped, ahead;
    uint32_t blocks, blocks_most; /* blocks of all rings now, and the maximum so far */
};

struct rings *rings_new(const struct rings_options *options);
void rings_free(struct rings *it);
const struct rings_counts *rings_counts(const struct rings *it);

/* rings_copy returns a copy of the state needed to continue from here, or null if memory runs out. rings_become
   restores a copy and frees it, but doesn't restore the counts. */
struct rings *rings_copy(const struct rings *it);
void rings_become(struct rings *it, struct rings *copy);

/* Translate the value in this client's register access: to the device for a write, to the driver for a read. */
uint32_t rings_to_device(struct rings *it, struct dma client, const struct bus_access *at, uint32_t word);
uint32_t rings_to_driver(const struct rings *it, const struct bus_access *at, uint32_t word);

/* Called when a client is about to write a tail. If `fetches`, the first descriptors up to the tail are read now. */
void rings_tail(struct rings *it, struct dma client, bool is_transmit, uint16_t queue, uint32_t tail, bool fetches);
/* Called when a head was written or a queue was reset: discards what was read ahead. */
void rings_head(struct rings *it, bool is_transmit, uint16_t queue, uint32_t head);
void rings_reset(struct rings *it, uint16_t queue);

/* Stops the rings of a client that leaves or is reset. */
void rings_stop_all(struct rings *it, struct dma client);
/* Called when the client's ranges of memory changed: discards what was read ahead from rings that lost their memory. */
void rings_remapped(struct rings *it, struct dma client);
/* Returns the ring's owner. Its function is null if the ring was stopped or not set up. */
struct dma rings_owner(const struct rings *it, bool is_transmit, uint16_t queue);

/* Provides the blocks and the descriptor that the device needs for its next step of this queue. Call it before each
   transmit step and after a receive step. Returns false if the transmit queue has nothing to send. */
bool rings_step(struct rings *it, bool is_transmit, uint16_t queue);
/* Like rings_step, for each receive queue that was touched. Call it before receive steps. */
void rings_prepare_receive(struct rings *it);

/* Fills the slots that the device doesn't have yet with harmless descriptors, for `why`, which examines all slots. The
   device and these rings are copies, or the originals if the device is recorded. */
void rings_fill(struct rings *it, nic *device);

/* Called when the device wrote these bytes: part of a frame, or a receive descriptor. */
void rings_written(struct rings *it, uint64_t bus, size_t length);
/* Called when the device wrote back a transmit descriptor of this queue, or its head. */
void rings_written_back(struct rings *it, uint16_t queue, uint64_t bus);

#endif
