/* The proved archive's calls, as calls.syms renames them. Each is declared like the library's own. */
#ifndef NICL_PROVED_H
#define NICL_PROVED_H

#include "nic82599.h"

__typeof__(nic_new) nicl_new;
__typeof__(nic_free) nicl_free;
__typeof__(nic_snapshot) nicl_snapshot, nicl_snapshot_without_memory;
__typeof__(nic_restore) nicl_restore;
__typeof__(nic_free_snapshot) nicl_free_snapshot;
__typeof__(nic_read32) nicl_read32, nicl_peek32;
__typeof__(nic_write32) nicl_write32;
__typeof__(nic_vf_read32) nicl_vf_read32, nicl_vf_peek32;
__typeof__(nic_vf_write32) nicl_vf_write32;
__typeof__(nic_lend) nicl_lend, nicl_take;
__typeof__(nic_lend_all) nicl_lend_all;
__typeof__(nic_dma_read) nicl_dma_read;
__typeof__(nic_dma_write) nicl_dma_write;
__typeof__(nic_arrive) nicl_arrive;
__typeof__(nic_next_out) nicl_next_out;
__typeof__(nic_collect) nicl_collect;
__typeof__(nic_link) nicl_link;
__typeof__(nic_rx_step) nicl_rx_step, nicl_eeprom_step;
__typeof__(nic_tx_step) nicl_tx_step;
__typeof__(nic_queue_step) nicl_queue_step;
__typeof__(nic_int_step) nicl_int_step;
__typeof__(nic_settle) nicl_settle;
__typeof__(nic_install_image) nicl_install_image;
__typeof__(nic_install_text) nicl_install_text;

#endif
