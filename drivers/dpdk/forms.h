/* Differences between the driver's versions since 22.11, detected by features instead of version numbers. */
#ifndef FORMS_H
#define FORMS_H

#include <stdint.h>

#include "base/ixgbe_type.h"
#include "ixgbe_ethdev.h"
#include "ixgbe_rxtx.h"

/* Since 25.11, Intel's drivers share their queue structs. */
#if __has_include("../common/rx.h")
#include "../common/rx.h"
#include "../common/tx.h"
typedef struct ci_rx_queue receive_queue;
typedef struct ci_tx_queue transmit_queue;
#define RECEIVE_RING ixgbe_rx_ring
#define TRANSMIT_RING ixgbe_tx_ring
#define TRANSMIT_RING_AT tx_ring_dma
#else
typedef struct ixgbe_rx_queue receive_queue;
typedef struct ixgbe_tx_queue transmit_queue;
#define RECEIVE_RING rx_ring
#define TRANSMIT_RING tx_ring
#define TRANSMIT_RING_AT tx_ring_phys_addr
#endif

/* which header declares these depends on the version */
uint16_t ixgbe_recv_pkts_vec(void *queue, struct rte_mbuf **packets, uint16_t count);
uint16_t ixgbe_recv_scattered_pkts_vec(void *queue, struct rte_mbuf **packets, uint16_t count);

/* Returns the mailbox functions. Older versions have a single struct; later ones have an array of two structs, the
   first of which is for a virtual function. */
static inline const struct ixgbe_mbx_operations *mailbox_calls(const struct ixgbe_hw *hw)
{
    return (const struct ixgbe_mbx_operations *)&hw->mbx.ops;
}

#endif
