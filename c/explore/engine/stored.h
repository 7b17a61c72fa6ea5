/* The driver's last write to each place in packet memory and to each register. The report of a later failure names the
   line of that write. */
#ifndef NICX_STORED_H
#define NICX_STORED_H

#include "engine.h"
#include "places.h"

/* Notes that the driver writes packet memory, or the register at this address. `call` may be null if it isn't known. */
void nicxi_note_stored(uint64_t bus, uint64_t length, const void *call);
void nicxi_note_set(uint32_t address, const void *call);

/* Called after a device step: forgets the driver's writes to places that the step overwrote. */
void nicxi_forget_stored(const struct step *step);

/* Returns " at ring.c:9 < driver.c:40" for this thread's write, if it was the last one to that place, or "". */
const char *nicxi_stored_at(const struct thread *thread, uint64_t bus, char room[MOST_PLACE]);

/* If a fault is at memory that isn't lent, adds to its report which of the driver's writes gave the device that
   address: the write of the descriptor; if the driver didn't write the descriptor, the write of the tail; if the
   descriptor itself isn't lent, the write of the ring's base. */
void nicxi_name_giver(const struct step *step);

#endif
