/* DPDK's receive and send functions (ixgbe_rxtx.c, ixgbe_rxtx_vec_sse.c), each in its own scenario. Frames arrive or
   are sent one at a time, more than a ring has slots. Each frame must arrive in order with its bytes unchanged. */
#include <rte_ring.h>
#include <rte_vect.h>
#include <stdio.h>
#include <string.h>

#include "explore.h"
#include "forms.h"

enum { BURST = 8, HEAD = 16, MOST_LENGTH = 1514, LOOK_AHEAD = 32, BLOCKS = 112 };

/* One of the driver's functions to receive or send. */
static const struct way {
    const char *name, *function;
    bool sends, has_segments, has_vectors;
    uint16_t slots, threshold; /* RS, free and post threshold; the faster functions need 32 */
    unsigned int packets, frames;
} ways[] = {
    {"recv", "ixgbe_recv_pkts", false, false, false, 64, 4, 80, 72},
    {"recv-bulk", "ixgbe_recv_pkts_bulk_alloc", false, false, false, 64, 32, 144, 72},
    {"recv-vec", "ixgbe_recv_pkts_vec", false, false, true, 64, 32, 144, 72},
    {"recv-segments", "ixgbe_recv_pkts_lro_single_alloc", false, true, false, 64, 4, 80, 54},
    {"recv-segments-bulk", "ixgbe_recv_pkts_lro_bulk_alloc", false, true, false, 64, 32, 144, 54},
    {"recv-segments-vec", "ixgbe_recv_scattered_pkts_vec", false, true, true, 64, 32, 144, 54},
    {"xmit", "ixgbe_xmit_pkts", true, true, false, 64, 8, 72, 60},
    {"xmit-simple", "ixgbe_xmit_pkts_simple", true, false, false, 64, 32, 72, 80},
    {"xmit-vec", "its vector function", true, false, true, 64, 32, 72, 80},
};
static const struct way *way;

static unsigned int done; /* frames received, or handed to the driver */

/* ---- frames ---- */

static size_t length_of(unsigned int number)
{
    return way->has_segments && number % 3 == 1 ? 1100 + number * 37 % 400 : 60 + number * 37 % 200;
}

static size_t fill(uint8_t *bytes, unsigned int number)
{
    static const uint8_t head[14] = {2, 0, 0, 0, 0, 1, 2, 0, 0, 0, 0, 2, 0x88, 0xB5};
    size_t length = length_of(number);
    for (size_t k = 0; k < length; k++)
        bytes[k] = (uint8_t)(number + k * 7);
    memcpy(bytes, head, sizeof head);
    bytes[14] = (uint8_t)number;
    return length;
}

/* Fills in a frame that arrives or is handed over, with a byte changed if that bug is planted. */
static size_t fill_for_driver(uint8_t *bytes, unsigned int number)
{
    size_t length = fill(bytes, number);
    if (planted == TURN && number == way->frames / 2)
        bytes[length - 1] ^= 1;
    return length;
}

/* ---- receiving ---- */

/* Reads the bytes of a packet, segment by segment. Reading a segment's first bytes is a point. Reading the other bytes
   isn't, to keep scripts short. */
static size_t read_packet(const struct rte_mbuf *packet, uint8_t *bytes)
{
    size_t length = 0;
    for (; packet; packet = packet->next) {
        if (length + packet->data_len > MOST_LENGTH)
            return SIZE_MAX;
        nicx_dma_read(rte_mbuf_data_iova(packet), bytes + length, packet->data_len < HEAD ? packet->data_len : HEAD);
        nic_dma_read(nicx_device(), rte_mbuf_data_iova(packet), bytes + length, packet->data_len);
        length += packet->data_len;
    }
    return length;
}

static void take(struct rte_mbuf *packet)
{
    uint8_t bytes[MOST_LENGTH], wanted[MOST_LENGTH];
    size_t length = read_packet(packet, bytes);
    nicx_check(done < way->frames, "an unexpected frame arrived");
    nicx_check(length == fill(wanted, done), "a frame arrived with a wrong length");
    nicx_check(packet->pkt_len == length, "a packet's length isn't the sum of its segments' lengths");
    nicx_check(memcmp(bytes, wanted, length) == 0, "a frame arrived with changed bytes, or out of order");
    rte_pktmbuf_free(packet);
    done++;
}

static void receive(void *unused)
{
    struct rte_mbuf *got[BURST];
    (void)unused;
    while (done < way->frames) {
        uint16_t count = port->rx_pkt_burst(port->data->rx_queues[0], got, BURST);
        points_flush();
        for (uint16_t k = 0; k < count; k++)
            take(got[k]);
        if (!count)
            nicx_wait();
    }
}

/* ---- sending ---- */

static struct rte_mbuf *segment(const uint8_t *bytes, size_t length)
{
    struct rte_mbuf *packet = rte_pktmbuf_alloc(packets);
    if (!packet)
        return NULL;
    packet->data_len = (uint16_t)length;
    packet->pkt_len = (uint32_t)length;
    nicx_dma_write(rte_mbuf_data_iova(packet), bytes, length);
    return packet;
}

/* Builds a frame's packet, with one segment or two. Returns null if no packet is free. */
static struct rte_mbuf *make_packet(unsigned int number)
{
    uint8_t bytes[MOST_LENGTH];
    size_t length = fill_for_driver(bytes, number), first = length > DATA_ROOM ? DATA_ROOM : length;
    if (rte_mempool_avail_count(packets) < 2)
        return NULL;
    struct rte_mbuf *packet = segment(bytes, first);
    if (first == length)
        return packet;
    packet->next = segment(bytes + first, length - first);
    packet->nb_segs = 2;
    packet->pkt_len = (uint32_t)length;
    return packet;
}

static void send_all(struct rte_mbuf **some, uint16_t count)
{
    for (uint16_t sent = 0; sent < count;) {
        uint16_t more = port->tx_pkt_burst(port->data->tx_queues[0], some + sent, count - sent);
        points_flush();
        sent += more;
        if (!more)
            nicx_wait();
    }
}

static void transmit(void *unused)
{
    struct rte_mbuf *some[BURST];
    (void)unused;
    while (done < way->frames) {
        uint16_t count = 0, wanted = 1 + done % BURST;
        while (count < wanted && done < way->frames && (some[count] = make_packet(done))) {
            count++;
            done++;
        }
        nicx_check(count != 0, "no packet is free: the driver keeps all of them");
        send_all(some, count);
    }
}

/* The scenario's `end`: checks that each frame was sent once and in order. */
static const char *went_out(void)
{
    uint8_t bytes[MOST_LENGTH], wanted[MOST_LENGTH];
    nic_outcome outcome;
    for (unsigned int k = 0; k < way->frames; k++) {
        if (nic_collect(nicx_device(), bytes, sizeof bytes, &outcome) != NIC_FRAME)
            return "a frame was never transmitted";
        if (outcome.len != fill(wanted, k) || memcmp(bytes, wanted, outcome.len) != 0)
            return "a frame was sent with changed bytes, or out of order";
    }
    return nic_next_out(nicx_device()) ? "a frame was transmitted twice" : NULL;
}

/* Checks that each frame that arrived was received. Otherwise it is waiting in the device, and the library says why. */
static const char *came_in(void)
{
    static char words[240], why[400];
    if (done >= nicx_came())
        return NULL;
    nic_why(nicx_device(), why, sizeof why);
    for (char *at = why; *at; at++)
        if (*at == '\n')
            *at = at[1] ? ';' : 0;
    snprintf(words, sizeof words, "frame %u was never received: %.200s", done,
             *why ? why : "it isn't in the device; the driver never returned it");
    return words;
}

/* ---- bring-up ---- */

static const char *set_up_receive(void)
{
    struct rte_eth_rxconf configuration = {.rx_free_thresh = way->threshold};
    if (ixgbe_dev_rx_queue_setup(port, 0, way->slots, SOCKET_ID_ANY, &configuration, packets) != 0)
        return "ixgbe_dev_rx_queue_setup fails";
    receive_queue *queue = port->data->rx_queues[0];
    queue->rx_ring_phys_addr = BUS_RING;
    points_ring(queue->RECEIVE_RING, BUS_RING, (way->slots + LOOK_AHEAD) * sizeof *queue->RECEIVE_RING);
    return ixgbe_dev_rx_init(port) == 0 ? NULL : "ixgbe_dev_rx_init fails";
}

static const char *set_up_transmit(void)
{
    struct rte_eth_txconf configuration = {.tx_rs_thresh = way->threshold, .tx_free_thresh = way->threshold};
    if (ixgbe_dev_tx_queue_setup(port, 0, way->slots, SOCKET_ID_ANY, &configuration) != 0)
        return "ixgbe_dev_tx_queue_setup fails";
    transmit_queue *queue = port->data->tx_queues[0];
    queue->TRANSMIT_RING_AT = BUS_RING;
    points_ring(queue->TRANSMIT_RING, BUS_RING, way->slots * sizeof *queue->TRANSMIT_RING);
    ixgbe_dev_tx_init(port);
    return NULL;
}

static void keep_packet(struct rte_mempool *pool, void *is_kept, void *packet, unsigned int number)
{
    (void)pool;
    (void)number;
    *(bool *)is_kept = *(bool *)is_kept && state_keep(packet, sizeof(struct rte_mbuf));
}

static bool keep_receive(void)
{
    receive_queue *queue = port->data->rx_queues[0];
    size_t entries = way->slots + (way->threshold == LOOK_AHEAD ? LOOK_AHEAD : 0);
    return state_keep(queue, sizeof *queue) && state_keep(queue->sw_ring, entries * sizeof *queue->sw_ring) &&
           state_keep(queue->sw_sc_ring, entries * sizeof *queue->sw_sc_ring) &&
           state_keep((void *)(uintptr_t)queue->RECEIVE_RING, (way->slots + LOOK_AHEAD) * sizeof *queue->RECEIVE_RING);
}

static bool keep_transmit(void)
{
    transmit_queue *queue = port->data->tx_queues[0];
    return state_keep(queue, sizeof *queue) && state_keep(queue->sw_ring, way->slots * sizeof *queue->sw_ring) &&
           state_keep((void *)(uintptr_t)queue->TRANSMIT_RING, way->slots * sizeof *queue->TRANSMIT_RING);
}

static bool keep(void)
{
    state_begin();
    bool is_kept = way->sends ? keep_transmit() : keep_receive();
    rte_mempool_obj_iter(packets, keep_packet, &is_kept);
    struct rte_ring *ring = packets->pool_data;
    return is_kept && state_keep(ring, (size_t)rte_ring_get_memsize(ring->size));
}

static const char *set_up(void)
{
    const char *fault = layer_port(0);
    if (fault)
        return fault;
    points_begin();
    port->data->mtu = way->has_segments ? 1500 : 900;
    port->data->scattered_rx = 0;
    port->data->nb_rx_queues = !way->sends;
    port->data->nb_tx_queues = way->sends;
    rte_vect_set_max_simd_bitwidth(way->has_vectors ? RTE_VECT_SIMD_128 : RTE_VECT_SIMD_DISABLED);
    fault = way->sends ? set_up_transmit() : set_up_receive();
    if (fault)
        return fault;
    return ixgbe_dev_rxtx_start(port) == 0 ? NULL : "ixgbe_dev_rxtx_start fails";
}

/* Returns whether the driver selected the intended function. */
static bool is_this_way(void)
{
    static const struct {
        const char *name;
        eth_rx_burst_t receives;
        eth_tx_burst_t sends;
    } functions[] = {
        {"ixgbe_recv_pkts", ixgbe_recv_pkts, NULL},
        {"ixgbe_recv_pkts_bulk_alloc", ixgbe_recv_pkts_bulk_alloc, NULL},
        {"ixgbe_recv_pkts_vec", ixgbe_recv_pkts_vec, NULL},
        {"ixgbe_recv_pkts_lro_single_alloc", ixgbe_recv_pkts_lro_single_alloc, NULL},
        {"ixgbe_recv_pkts_lro_bulk_alloc", ixgbe_recv_pkts_lro_bulk_alloc, NULL},
        {"ixgbe_recv_scattered_pkts_vec", ixgbe_recv_scattered_pkts_vec, NULL},
        {"ixgbe_xmit_pkts", NULL, ixgbe_xmit_pkts},
        {"ixgbe_xmit_pkts_simple", NULL, ixgbe_xmit_pkts_simple},
    };
    for (size_t k = 0; k < RTE_DIM(functions); k++) {
        bool is_it =
            way->sends ? functions[k].sends == port->tx_pkt_burst : functions[k].receives == port->rx_pkt_burst;
        if (is_it)
            return !strcmp(functions[k].name, way->function);
    }
    return way->sends && way->has_vectors; /* the driver's unnamed function */
}

static const char *bring_up(void)
{
    const char *fault = layer_start();
    if (!fault)
        fault = layer_pool(way->packets);
    if (fault)
        return fault;
    for (uint32_t block = 1; block < BLOCKS; block++)
        nicx_lend(block);
    seam_bring_up(true);
    fault = set_up();
    points_flush();
    seam_bring_up(false);
    if (fault)
        return fault;
    nicx_write32(NIC_FCTRL, NIC_FCTRL_UPE);
    if (!is_this_way())
        return "the driver chose a different function";
    return keep() ? NULL : "out of memory for the driver's state";
}

static void begin(void)
{
    uint8_t bytes[MOST_LENGTH];
    state_back();
    done = 0;
    if (way->sends) {
        nicx_task("transmit", transmit, NULL);
        return;
    }
    nicx_service("receive", receive, NULL); /* it waits for frames; came_in reports one that doesn't come */
    for (unsigned int k = 0; k < way->frames; k++)
        nicx_frame(bytes, fill_for_driver(bytes, k));
}

static const char *end(void)
{
    return way->sends ? went_out() : came_in();
}

const nicx_scenario *rings_scenario(const char *name)
{
    static nicx_scenario scenario = {
        .fifo = 128,
        .blocks = BLOCKS,
        .queues = 1,
        .points = 100000,
        .stack = 262144,
        .bring_up = bring_up,
        .begin = begin,
        .end = end,
    };
    for (size_t k = 0; k < RTE_DIM(ways); k++)
        if (!strcmp(ways[k].name, name))
            way = &ways[k];
    if (!way)
        return NULL;
    scenario.name = way->name;
    return &scenario;
}
