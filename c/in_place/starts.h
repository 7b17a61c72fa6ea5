/* The start address of each block of the caller's memory, for all controllers together. A lookup finds out in a few
   steps whether memory is the caller's, however many controllers and blocks there are. The caller holds a lock. */
#ifndef NICL_STARTS_H
#define NICL_STARTS_H

#include <stdbool.h>
#include <stddef.h>
#include <stdint.h>

/* Makes room for more blocks. Returns false if memory runs out. */
bool nicl_starts_reserve(size_t more);
/* Adds the address of a block, for which there is room, or removes it. Several controllers may have the same memory: it
   remains the caller's until the last one releases it. */
void nicl_starts_add(uintptr_t start);
void nicl_starts_remove(uintptr_t start);
/* Returns whether an address is in a block that was added. */
bool nicl_starts_has(uintptr_t address);
/* Returns whether all blocks have been removed. */
bool nicl_starts_is_empty(void);

#endif
