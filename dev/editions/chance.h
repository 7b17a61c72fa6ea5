/* Random events: the same events for the same seed, on every machine. */
#ifndef CHANCE_H
#define CHANCE_H

#include "event.h"

void chance_seed(uint64_t seed);

/* Returns a number below `bound`, which isn't 0. */
uint32_t chance_below(uint32_t bound);

/* Stores the next event, which is chosen only from what is open. */
void chance_event(const struct side *side, struct event *event);

/* All addresses in the register table. */
extern const uint32_t chance_addresses[];
extern const size_t chance_address_count;

#endif
