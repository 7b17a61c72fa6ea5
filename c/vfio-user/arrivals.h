/* Accepted frames that wait in front of the queues. The device doesn't report their number, so this counts them. A
   frame is done when it is received or dropped, when it ends in a fault, or when the queue that it is being written to
   is disabled. */
#ifndef VFU_ARRIVALS_H
#define VFU_ARRIVALS_H

#include <stdbool.h>
#include <stdint.h>

struct bus;

struct arrivals {
    const struct bus *bus;
    uint64_t waiting;
    uint64_t done;   /* number of frames that the bus had received or dropped at the last count */
    bool is_partial; /* part of the oldest waiting frame is written */
    uint16_t queue;  /* queue to which that frame is being written */
};

/* Starts with no frame waiting. Call this at the beginning and after a reset. */
void arrivals_begin(struct arrivals *it, const struct bus *bus);
/* Restores the number of waiting frames from a snapshot. */
void arrivals_restore(struct arrivals *it, const struct arrivals *kept);
void arrivals_let_in(struct arrivals *it);
/* Notes that the device wrote a part of the oldest waiting frame, perhaps its last part. */
void arrivals_written(struct arrivals *it, uint16_t queue);
/* Notes that the oldest waiting frame ended in a fault. */
void arrivals_fault(struct arrivals *it);
/* Called after receive steps: subtracts the frames that the device has received or dropped. */
void arrivals_count(struct arrivals *it);
/* Call this after a queue may have been disabled, and before it may be enabled again. */
void arrivals_check(struct arrivals *it);

#endif
