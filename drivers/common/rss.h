/* Computes the hash and queue that a frame should get, as the datasheet's section on receive side scaling specifies.
   Written independently of the library, so that a run's expectation doesn't come from the code under test. */
#ifndef DRIVERS_RSS_H
#define DRIVERS_RSS_H

#include <stdbool.h>
#include <stdint.h>

#include "frames.h"

struct bus;

#define RSS_KEY_BYTES 40
#define RSS_ENTRIES 128
#define RSS_ALL 0x00F30000u /* MRQC's bits for all frame types */

struct rss {
    uint8_t key[RSS_KEY_BYTES];
    uint8_t table[RSS_ENTRIES]; /* redirection table */
    uint32_t mrqc;
};

/* Reads the settings from the device's current registers. */
void rss_of_registers(struct rss *rss, const struct bus *bus);

/* Computes the hash of a frame. Returns false if no MRQC bit enables it. MRQC bits 3:0 (the mode) are ignored. */
bool rss_hash(const struct rss *rss, const struct frame *frame, uint32_t *hash);

/* Returns the frame's queue within its pool of 2, 4 or 8 queues, or of 16 queues without pools. */
uint16_t rss_queue(const struct rss *rss, const struct frame *frame, unsigned int queues);

#endif
