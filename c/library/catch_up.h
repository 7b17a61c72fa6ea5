/* The caller's memory that a call can read. Changed memory is poked before the call, so that a recording can be
   replayed. With a null recording, these functions do nothing. */
#ifndef NICL_CATCH_UP_H
#define NICL_CATCH_UP_H

#include "recording.h"

/* Called before a memory read by the caller, and before a snapshot. */
void nicl_before_read(struct recording *it, nic *n, uint64_t bus, uint64_t length);
/* Call it before a step that may enable a queue, or after a restore that may have enabled one. */
void nicl_may_switch(struct recording *it);
/* Called before a receive step, a transmit step of a queue, and a nic_settle with this number of queues. */
void nicl_before_receive(struct recording *it, nic *n);
void nicl_before_transmit(struct recording *it, nic *n, uint32_t queue);
void nicl_before_settle(struct recording *it, nic *n, uint32_t queues);

/* Called after a step: notes that the device wrote what it reported, as a replay's device does too. */
void nicl_after_step(const struct recording *it, nic *n, const nic_outcome *outcome);

#endif
