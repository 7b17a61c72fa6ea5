/* Shared by the files of the run and of the measurement of DPDK's ixgbe driver. */
#ifndef EXCHANGE_H
#define EXCHANGE_H

#include <stdbool.h>
#include <stdint.h>

#include "dpdk.h"

#define QUEUES 4
#define SMALL_BUFFER 1024 /* bytes of a receive buffer when frames are segmented */

extern unsigned int frames_of_pass;          /* each way */
extern unsigned int ring_slots, least_wraps; /* descriptors of a ring; how often each must wrap in a pass */
extern bool in_segments;                     /* frames span several buffers, both ways */

/* Parts of the run. They check frames in and out, the driver's counters, and which frames the filters accept. */
void traffic(uint16_t port);
void counters(uint16_t port);
void filters(uint16_t port);
void restart_queues(uint16_t port);
/* Sets the run's own redirection table. Returns 0, or 1 if the driver refuses it. */
uint16_t choose(uint16_t port);

/* Measures frames per second on the bench and with DPDK's null driver, alternately. */
int measure(uint16_t card, uint16_t null);

#endif
