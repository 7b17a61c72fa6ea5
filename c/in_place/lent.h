/* The caller's memory, in place: the archive's calls that involve blocks with the caller's memory. */
#ifndef NICL_LENT_H
#define NICL_LENT_H

#include "nic82599.h"

/* nic_lend_memory and nic_unlend_memory, as the header describes them. */
uint8_t nicl_lend_memory(nic *n, uint64_t bus, void *memory, size_t bytes);
uint8_t nicl_unlend_memory(nic *n, uint64_t bus, size_t bytes);

/* nicl_free, nicl_take and nicl_restore for a controller with blocks that may hold the caller's memory. They take that
   memory out of the controller first, so that the controller neither frees nor keeps it. */
void nicl_free_in_place(nic n);
uint8_t nicl_take_in_place(nic *n, uint32_t block);
uint8_t nicl_restore_in_place(nic *n, const nic_kept *kept);

#endif
