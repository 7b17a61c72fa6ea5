/* DPDK's driver plugged into the card: one queue in each direction, ixgbe_recv_pkts_lro_single_alloc and
   ixgbe_xmit_pkts, set up, started and stopped by the driver's own code. drivers/dpdk provides DPDK's memory and a port
   without a bus, and makes each register or descriptor access a point. */
#include <rte_ring.h>
#include <rte_vect.h>
#include <string.h>

#include "explore.h"
#include "forms.h"
#include "nic82599_drive.h"

enum {
    PACKETS = 144,
    BLOCKS = 90, /* 2,048-byte blocks, starting at BUS_RING; the packets start at BUS_BUFFERS */
    TX_RING = BUS_RING + 0x800,
    LOOK_AHEAD = 32,
    SEND_THRESHOLD = 8,
    FREE_THRESHOLD = 4
};

static uint64_t memory;

/* --- DPDK's state: a new schedule forgets the packets of the last one, because their pool is set up again --- */

static void keep_packet(struct rte_mempool *pool, void *is_kept, void *packet, unsigned int number)
{
    (void)pool;
    (void)number;
    *(bool *)is_kept = *(bool *)is_kept && state_keep(packet, sizeof(struct rte_mbuf));
}

static bool keep_pool(void)
{
    static bool is_kept;
    if (is_kept)
        return true;
    is_kept = true;
    state_begin();
    rte_mempool_obj_iter(packets, keep_packet, &is_kept);
    struct rte_ring *ring = packets->pool_data;
    is_kept = is_kept && state_keep(ring, (size_t)rte_ring_get_memsize(ring->size));
    return is_kept;
}

static void forget_packets(void)
{
    receive_queue *rx = port && port->data->rx_queues ? port->data->rx_queues[0] : NULL;
    transmit_queue *tx = port && port->data->tx_queues ? port->data->tx_queues[0] : NULL;
    for (unsigned int k = 0; rx && k < rx->nb_rx_desc; k++) {
        rx->sw_ring[k].mbuf = NULL;
        rx->sw_sc_ring[k].fbuf = NULL;
    }
    for (unsigned int k = 0; tx && k < tx->nb_tx_desc; k++)
        tx->sw_ring[k].mbuf = NULL;
}

/* --- open and close --- */

static bool set_up_receive(uint16_t slots)
{
    struct rte_eth_rxconf configuration = {.rx_free_thresh = FREE_THRESHOLD};
    if (ixgbe_dev_rx_queue_setup(port, 0, slots, SOCKET_ID_ANY, &configuration, packets) != 0)
        return false;
    receive_queue *queue = port->data->rx_queues[0];
    queue->rx_ring_phys_addr = BUS_RING;
    points_ring(queue->RECEIVE_RING, BUS_RING, (slots + LOOK_AHEAD) * sizeof *queue->RECEIVE_RING);
    return ixgbe_dev_rx_init(port) == 0;
}

static bool set_up_transmit(uint16_t slots)
{
    struct rte_eth_txconf configuration = {.tx_rs_thresh = SEND_THRESHOLD, .tx_free_thresh = SEND_THRESHOLD};
    if (ixgbe_dev_tx_queue_setup(port, 0, slots, SOCKET_ID_ANY, &configuration) != 0)
        return false;
    transmit_queue *queue = port->data->tx_queues[0];
    queue->TRANSMIT_RING_AT = TX_RING;
    points_ring(queue->TRANSMIT_RING, TX_RING, slots * sizeof *queue->TRANSMIT_RING);
    ixgbe_dev_tx_init(port);
    return true;
}

static bool start(uint16_t slots)
{
    if (layer_port(0))
        return false;
    points_begin();
    port->data->mtu = 1500;
    port->data->scattered_rx = 0;
    port->data->nb_rx_queues = port->data->nb_tx_queues = 1;
    rte_vect_set_max_simd_bitwidth(RTE_VECT_SIMD_DISABLED);
    if (!set_up_receive(slots) || !set_up_transmit(slots) || ixgbe_dev_rxtx_start(port) != 0)
        return false;
    points_flush();
    nicx_write32(NIC_FCTRL, NIC_FCTRL_UPE | NIC_FCTRL_BAM);
    return true;
}

static bool open_driver(const nicd_setup *setup)
{
    if (layer_start() || layer_pool(PACKETS) || !keep_pool())
        return false;
    forget_packets();
    state_back();
    memory = nicd_dma_alloc(BLOCKS * NIC_BLOCK_BYTES);
    if (memory == BUS_RING && start(setup->slots))
        return true;
    if (memory)
        nicd_dma_free(memory);
    return false;
}

static void close_driver(void)
{
    ixgbe_dev_rx_queue_stop(port, 0);
    ixgbe_dev_tx_queue_stop(port, 0);
    points_flush();
    nicd_dma_free(memory);
}

/* --- frames --- */

static bool receive_frame(uint16_t queue, nicd_frame *frame)
{
    struct rte_mbuf *packet = NULL;
    uint16_t count = port->rx_pkt_burst(port->data->rx_queues[queue], &packet, 1);
    points_flush();
    for (struct rte_mbuf *it = packet; count && it; it = it->next) {
        nicx_dma_read(rte_mbuf_data_iova(it), frame->bytes + frame->length, it->data_len);
        frame->length += it->data_len;
    }
    if (count)
        rte_pktmbuf_free(packet);
    return count != 0;
}

static struct rte_mbuf *segment(const uint8_t *bytes, uint32_t length)
{
    struct rte_mbuf *packet = rte_pktmbuf_alloc(packets);
    if (!packet)
        return NULL;
    packet->data_len = (uint16_t)length;
    packet->pkt_len = length;
    nicx_dma_write(rte_mbuf_data_iova(packet), bytes, length);
    return packet;
}

static bool send_frame(uint16_t queue, const uint8_t *bytes, uint32_t length)
{
    uint32_t first = length > DATA_ROOM ? DATA_ROOM : length;
    if (length > 1514 || rte_mempool_avail_count(packets) < 2)
        return false;
    struct rte_mbuf *packet = segment(bytes, first);
    if (first < length) {
        packet->next = segment(bytes + first, length - first);
        packet->nb_segs = 2;
        packet->pkt_len = length;
    }
    uint16_t count = port->tx_pkt_burst(port->data->tx_queues[queue], &packet, 1);
    points_flush();
    if (!count)
        rte_pktmbuf_free(packet);
    return count != 0;
}

int main(int argc, char **argv)
{
    static const nicd_driver card = {
        .name = "dpdk-ixgbe",
        .can = NICD_NO_ADDRESS,
        .slots = 64,
        .open = open_driver,
        .close = close_driver,
        .receive = receive_frame,
        .send = send_frame,
    };
    return nicd_main(argc, argv, &card);
}
