/* Reports faults, drops and stray accesses on standard error as they happen, if the environment requests it
   (NIC82599_TELL=1). The first of each kind is a line with its reason, and further ones are counted: the tenth, the
   hundredth and so on get a line, and the total is printed when the controller is closed or the process exits.
   nicl_enter's lock protects all of it. */
#ifndef NICL_TELL_H
#define NICL_TELL_H

#include <stdbool.h>
#include <stdint.h>

#include "nic82599.h"

/* Returns whether the environment requested this when the first controller was created. */
bool nicl_is_telling(void);

/* Called when a controller is created, when one is closed, and when the process exits. */
void nicl_tell_begin(const nic *n);
void nicl_tell_end(const nic *n);
void nicl_tell_all_ends(void);
/* Called in a child of fork: marks what was counted so far as printed, because the parent reports it. */
void nicl_tell_forked(void);

/* Report a stray access, as a script's line; what happened to an arriving frame; and what a step did. */
void nicl_tell_stray(const nic *n, uint32_t address, const char *line);
void nicl_tell_vf_stray(const nic *n, uint8_t vf, uint32_t offset, const char *line);
void nicl_tell_arrival(nic *n, const nic_outcome *outcome, const uint8_t *frame);
void nicl_tell_step(nic *n, const nic_outcome *outcome, bool transmit);

#endif
