/* The far end of the wire. It sends the frames that the guest's program orders, compares the frames that it receives,
   and sends back datagrams to UDP port 7. */
#ifndef LINUX_PEER_H
#define LINUX_PEER_H

#include <stdbool.h>
#include <stddef.h>
#include <stdint.h>

#include "bus.h"
#include "pci.h"

/* Callbacks and sink for the bus. */
void peer_takes(void *of, uint16_t queue, const uint8_t *frame, size_t length);
void peer_filled(void *of, uint16_t queue, uint64_t descriptor, bool ends);
void peer_goes_on(void *of, const struct bus_access *access);

void peer_orders(uint32_t what, struct order_words *words);

/* Prints the counts of frames on the wire, and compares them with the bus's counts. */
void peer_tell(void);

/* Returns the number of offload faults that the guest expects. */
uint32_t peer_faults(void);

#endif
