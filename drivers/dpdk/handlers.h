/* Decides when the drivers' interrupt handlers are called. Handlers run one after another, as on one processor, and
   never nested. */
#ifndef HANDLERS_H
#define HANDLERS_H

#include <stdbool.h>
#include <stdint.h>

#include "bus.h"

/* What calls the handlers. By default, messages do (nic_int_step): vector 0 calls the function's handler. `by_line`:
   virtual functions still use messages, but the PF's handler is called when the card's line is up for a cause other
   than a queue's. The PF's driver assigns no vector to such causes unless its queues have vectors. `late`: handlers are
   called only at every `late`-th read of a function's VFMAILBOX, which its driver polls; 0 calls them after each
   write. */
struct handlers_way {
    bool by_line;
    unsigned int late;
};

void handlers_begin(struct handlers_way way);

/* Calls handlers until no message is due and the line is down. */
void handlers_run(void);

/* Callbacks for the bus. */
void handlers_reading(void *of, unsigned int function, uint32_t offset);
void handlers_written(void *of, const struct bus_access *access);
void handlers_message(void *of, unsigned int function, unsigned int vector);

/* Returns how often the line called the PF's handler. */
uint64_t handlers_by_line(void);

#endif
