/* The driver's requests to the machine that it runs on. A kernel, a user-space framework or a bench implements them. */
#ifndef OS_H
#define OS_H

#include <stddef.h>
#include <stdint.h>

uint32_t os_read32(uint32_t offset); /* registers, at their offset in BAR 0 */
void os_write32(uint32_t offset, uint32_t word);

/* Allocates zeroed memory for the driver and the device. Returns the memory with its bus address, or null if memory has
   run out. */
void *os_dma_alloc(size_t bytes, uint64_t *bus);
void os_dma_free(void *memory, uint64_t bus);

void os_wmb(void); /* stores before it reach the device before stores after it */
void os_rmb(void); /* loads after it aren't older than loads before it */

#endif
