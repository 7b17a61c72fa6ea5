/* Included before each source of DPDK's ixgbe driver (gcc -include reroute.h). The driver's register accesses, waits,
   registration and interrupt handlers go to card.c; its sources stay unmodified. DPDK's own headers are read first, so
   that their definitions keep their names. */
#ifndef REROUTE_H
#define REROUTE_H

#include <rte_cycles.h>
#include <rte_interrupts.h>
#include <rte_io.h>

#include "seam.h"

/* every register access in the driver's osdep header */
#define rte_read32(address) seam_read(address)
#define rte_read32_relaxed(address) seam_read(address)
#define rte_write32(word, address) seam_write(word, address, __FILE__, __LINE__)
#define rte_write32_relaxed(word, address) seam_write(word, address, __FILE__, __LINE__)
#define rte_write32_wc(word, address) seam_write(word, address, __FILE__, __LINE__)
#define rte_write32_wc_relaxed(word, address) seam_write(word, address, __FILE__, __LINE__)

/* waits, which take no time because the bench runs no step by itself */
#define rte_delay_us_sleep(microseconds) seam_wait(microseconds)

/* where the driver registers with the PCI bus */
#define rte_pci_register(driver) seam_register(driver)

/* where it registers its interrupt handler */
#define rte_intr_callback_register(handle, handler, argument) seam_handle(handle, handler, argument)
#define rte_intr_callback_unregister(handle, handler, argument) seam_handle_no_more(handle, handler, argument)

#endif
