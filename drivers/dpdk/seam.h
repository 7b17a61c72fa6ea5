/* Declares all calls that replace accesses by DPDK's driver (reroute.h). This file is included before each of the
   driver's sources. */
#ifndef SEAM_H
#define SEAM_H

#include <stdint.h>

struct rte_pci_driver;
struct rte_intr_handle;

uint32_t seam_read(const volatile void *address);
/* `file` and `line` are the driver's. They are arguments because a store would be a point for the explorer. */
void seam_write(uint32_t word, volatile void *address, const char *file, unsigned int line);
void seam_wait(unsigned int microseconds);
void seam_register(struct rte_pci_driver *driver);
int seam_handle(const struct rte_intr_handle *handle, void (*handler)(void *), void *argument);
int seam_handle_no_more(const struct rte_intr_handle *handle, void (*handler)(void *), void *argument);

#endif
