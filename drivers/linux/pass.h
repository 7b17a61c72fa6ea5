/* Frames through an interface of the guest, each compared byte by byte, and orders to the far end of the wire. */
#ifndef LINUX_PASS_H
#define LINUX_PASS_H

#include <stdbool.h>
#include <stdint.h>

#include "interface.h"
#include "orders.h"

/* Finds the order registers. Returns false and reports a problem if there are none. */
bool pass_begin(void);

/* Issues an order with `count` as its only argument. Returns result 1. */
uint32_t order(enum order what, uint32_t count);
/* Issues an order with `function` as its only argument. Returns result 1. */
uint32_t order_of(enum order what, unsigned int function);
/* Sends one frame to this address. Returns whether it reached a descriptor. */
bool order_one(const uint8_t to[6], uint32_t number);
void order_verdict(uint32_t wrong, uint32_t compared_things);

/* Sends `count` frames of up to `most` bytes, and receives as many. Checks their bytes, their order if there is one
   queue, the driver's statistics and interrupts. Prints a line. */
void pass(const struct interface *it, unsigned int count, unsigned int most, unsigned int queues);

/* Sends `count` datagrams through the kernel's stack; the peer sends them back. */
void pass_datagrams(const struct interface *it, unsigned int count);

/* Passes `count` datagrams to the driver, each of which requests a checksum from the card. The card sends none of them,
   and reports a fault for each. Waits after each datagram until the driver has reset its card. */
void pass_offloaded(const struct interface *it, unsigned int count);

/* Checks which destination addresses are accepted as the interface's filters change. */
void pass_filters(const struct interface *it);

#endif
