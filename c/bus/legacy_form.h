/* Converts legacy descriptors, which the bench's device doesn't support, to advanced ones and back. iPXE's driver and
   drivers for small systems use them. The public source is the Intel 82599 10 GbE Controller Datasheet (331520). */
#ifndef BUS_LEGACY_FORM_H
#define BUS_LEGACY_FORM_H

#include <stdbool.h>
#include <stdint.h>

/* A checksum that a legacy transmit descriptor requests: it covers the bytes starting at `start`, and is stored at
   `at`. */
struct legacy_sum {
    bool is_wanted;
    uint8_t start, at;
};

/* Returns whether a transmit descriptor with this second half is a legacy one. */
bool legacy_is_transmit(uint64_t second);
/* Converts that half to the second half of an advanced data descriptor. If the descriptor requests a VLAN tag, VLE is
   set and *tag is its 16 bits. */
uint64_t legacy_transmit(uint64_t second, struct legacy_sum *sum, uint16_t *tag);
/* Converts the second half of an advanced write-back to the second half of a legacy receive descriptor. The first half
   remains the buffer's address. */
uint64_t legacy_written_back(uint64_t second);

/* Return whether a queue's SRRCTL selects legacy descriptors, and the value that the device gets instead. */
bool legacy_is_receive(uint32_t srrctl);
uint32_t legacy_receive(uint32_t srrctl);

#endif
