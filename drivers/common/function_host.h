/* A minimal PF driver for one virtual function: it enables pools, sets the virtual function's address and serves the
   PF's half of the mailbox. It replies to requests as Linux's PF driver does (API 1.0 and 1.1). It is for runs of a VF
   driver without a PF driver. */
#ifndef DRIVERS_FUNCTION_HOST_H
#define DRIVERS_FUNCTION_HOST_H

#include <stdbool.h>
#include <stdint.h>

#include "bus.h"

/* Sets up the device for virtual function `vf`, which must be below the run's number of virtual functions, in pools of
   two queues. The virtual function gets address `mac` when it requests a reset. Its pool is the default pool, which
   receives broadcast frames. */
void function_host_begin(unsigned int vf, const uint8_t mac[6]);

/* Replies to the virtual function's request if one is waiting. Call it from the bus's callback `written`. */
void function_host_written(void *of, const struct bus_access *access);

/* Sends a control message, as after a link change, so that the virtual function reads the link state. Returns false if
   the virtual function holds the mailbox. */
bool function_host_ping(void);

#endif
