/* The simplest other end of a wire: it answers ARP requests for its address and echo requests (ping) to that address,
   and returns UDP datagrams that are sent to port 7. */
#ifndef VFU_RESPOND_H
#define VFU_RESPOND_H

#include <stddef.h>
#include <stdint.h>

/* Writes the answer to a frame to `to`, which has room for `length` bytes. Returns the answer's length, or 0 for none.
   `own` is the responder's hardware address, `address` its IPv4 address with the first byte in bits 31:24. */
size_t respond(const uint8_t *frame, size_t length, const uint8_t own[6], uint32_t address, uint8_t *to);

#endif
