/* The functions of the driver that run.c calls: driver.c contains them in C, and driver.rs in Rust. */
#ifndef MMIO_DRIVER_H
#define MMIO_DRIVER_H

#include <stddef.h>
#include <stdint.h>

#define DRIVER_MEMORY 0x5000 /* bytes of DMA memory that the driver needs */

/* Resets the card, and sets up one queue each way. `bar` is where the registers are mapped. `memory` is the driver's
   DMA memory, and the card sees it at the address `bus`. */
void driver_open(volatile void *bar, void *memory, uint64_t bus);

/* Sends each received frame back. */
void driver_poll(void);

#endif
