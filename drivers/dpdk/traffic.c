/* The passes of the run: frames from the wire to the driver and back, counters, restarts. */
#include "exchange.h"

#include <inttypes.h>
#include <rte_version.h>
#include <stdio.h>
#include <string.h>

#include "explain.h"
#include "frames.h"
#include "hashes.h"
#include "run.h"
#include "verdict.h"

#define SEGMENTS 3

static struct rss rss;
static struct line_up in[QUEUES], out[QUEUES]; /* frames expected from each queue, in order */
static uint64_t received[QUEUES], sent[QUEUES];
static unsigned int alike, hashes, unhashed;

/* Creates empty lists, with room for a pass and a full ring. */
static void clear(struct line_up *lists)
{
    for (unsigned int queue = 0; queue < QUEUES; queue++) {
        line_up_end(&lists[queue]);
        if (!line_up_begin(&lists[queue], frames_of_pass + ring_slots))
            rte_exit(1, "out of memory\n");
    }
}

static void make_next(struct line_up *list, struct frame *frame, const uint8_t *to, const uint8_t *from)
{
    uint32_t number;
    if (line_up_take(list, &number)) {
        frame_make(frame, number, FRAME_MAX, to, from);
        return;
    }
    problem("an unexpected frame arrived");
    frame->length = 0;
    frame->kind = FRAME_OTHER;
}

static void expect_none_left(const struct line_up *lists, const char *what)
{
    for (unsigned int queue = 0; queue < QUEUES; queue++)
        if (line_up_left(&lists[queue]))
            problem("queue %u: %u frames %s are missing", queue, line_up_left(&lists[queue]), what);
}

/* ---- from the wire to the driver ---- */

static uint16_t queue_of(const struct frame *frame)
{
    return rss_queue(&rss, frame, QUEUES);
}

static void arrive(unsigned int number)
{
    struct frame frame;
    frame_make(&frame, number, FRAME_MAX, card_mac, peer_mac);
    line_up_put(&in[queue_of(&frame)], number);
    if (!bus_arrive(run_bus, frame.bytes, frame.length))
        refused("", number);
}

static void compare_hash(const struct rte_mbuf *packet, const struct frame *frame, uint16_t queue)
{
    switch (hash_compare(packet, frame, &rss)) {
    case HASH_RIGHT: hashes++; break;
    case HASH_NONE: unhashed++; break;
    default: problem("queue %u: the hash of a %u-byte frame is wrong", queue, frame->length);
    }
}

static bool is_alike(const struct rte_mbuf *packet, const struct frame *frame)
{
    uint8_t room[FRAME_MAX];
    unsigned int buffers = in_segments ? (frame->length + SMALL_BUFFER - 1) / SMALL_BUFFER : 1;
    if (packet->nb_segs != buffers || rte_pktmbuf_pkt_len(packet) != frame->length)
        return false;
    const void *bytes = rte_pktmbuf_read(packet, 0, frame->length, room);
    return bytes && frame_is(frame, bytes, frame->length);
}

static void compare(const struct rte_mbuf *packet, uint16_t queue, void *unused)
{
    (void)unused;
    struct frame frame;
    make_next(&in[queue], &frame, card_mac, peer_mac);
    if (is_alike(packet, &frame))
        alike++;
    else
        problem("queue %u: a %u-byte frame arrived changed (%u bytes)", queue, frame.length,
                rte_pktmbuf_pkt_len(packet));
    compare_hash(packet, &frame, queue);
}

static unsigned int take(uint16_t port, uint16_t queue)
{
    unsigned int all = take_packets(port, queue, compare, NULL);
    received[queue] += all;
    return all;
}

static void frames_in(uint16_t port)
{
    for (unsigned int number = 0; number < frames_of_pass;) {
        unsigned int burst = RTE_MIN(1 + number % BURST, frames_of_pass - number);
        for (unsigned int i = 0; i < burst; i++)
            arrive(number++);
        bus_receive(run_bus);
        for (uint16_t queue = 0; queue < QUEUES; queue++)
            take(port, queue);
    }
    refused_end();
    expect_none_left(in, "in");
}

/* ---- from the driver to the wire ---- */

static void compare_sent(void *of, uint16_t queue, const uint8_t *bytes, size_t length)
{
    (void)of;
    struct frame frame;
    make_next(&out[queue], &frame, peer_mac, card_mac);
    if (frame_is(&frame, bytes, length))
        alike++;
    else
        problem("queue %u: a %u-byte frame was sent changed (%zu bytes)", queue, frame.length, length);
    sent[queue]++;
}

/* Builds a packet: one buffer, or a chain of three when frames are segmented. */
static struct rte_mbuf *packet_of(unsigned int number)
{
    struct frame frame;
    struct rte_mbuf *parts[SEGMENTS];
    unsigned int count = in_segments ? SEGMENTS : 1, done = 0;
    if (rte_pktmbuf_alloc_bulk(pool, parts, count) != 0)
        return NULL;
    expect_different(parts, count);
    frame_make(&frame, number, FRAME_MAX, peer_mac, card_mac);
    for (unsigned int i = 0; i < count; i++) {
        uint16_t length = (uint16_t)((frame.length - done) / (count - i));
        memcpy(rte_pktmbuf_append(parts[i], length), frame.bytes + done, length);
        done += length;
        if (i > 0)
            rte_pktmbuf_chain(parts[0], parts[i]);
    }
    return parts[0];
}

static unsigned int packets_of(struct rte_mbuf **packets, uint16_t queue, unsigned int number, unsigned int burst)
{
    for (unsigned int i = 0; i < burst; i++) {
        packets[i] = packet_of(number + i);
        if (!packets[i]) {
            problem("no packet is free");
            return i;
        }
        line_up_put(&out[queue], number + i);
    }
    return burst;
}

static void hand_over(uint16_t port, uint16_t queue, unsigned int number, unsigned int burst)
{
    struct rte_mbuf *packets[BURST];
    unsigned int made = packets_of(packets, queue, number, burst), gone = 0;
    for (unsigned int tries = 0; gone < made && tries < BURST; tries++)
        gone += rte_eth_tx_burst(port, queue, packets + gone, (uint16_t)(made - gone));
    if (gone < made)
        problem("queue %u accepted only %u of %u frames", queue, gone, made);
    rte_pktmbuf_free_bulk(packets + gone, made - gone);
}

static void frames_out(uint16_t port)
{
    unsigned int turn = 0;
    for (unsigned int number = 0; number < frames_of_pass; turn++) {
        unsigned int burst = RTE_MIN(1 + turn * 7 % BURST, frames_of_pass - number);
        hand_over(port, (uint16_t)(turn % QUEUES), number, burst);
        number += burst;
    }
    expect_none_left(out, "out");
}

static void tell(const char *way, const uint64_t *by_queue)
{
    printf("  %s: %u of %u frames correct, byte by byte and in order; by queue", way, alike, frames_of_pass);
    for (unsigned int queue = 0; queue < QUEUES; queue++)
        printf(" %" PRIu64, by_queue[queue]);
    printf("\n");
}

/* Prints how often the ring that wrapped least did so, and checks that. A ring that never wraps hides a driver that
   never returns a slot to the device. */
static void tell_wraps(const uint64_t *received_before, const uint64_t *sent_before)
{
    uint64_t least = UINT64_MAX;
    for (unsigned int queue = 0; queue < QUEUES; queue++)
        least = RTE_MIN(least, RTE_MIN(received[queue] - received_before[queue], sent[queue] - sent_before[queue]));
    least /= ring_slots;
    printf("  each ring wrapped at least %" PRIu64 " times\n", least);
    if (least < least_wraps)
        problem("a ring of %u descriptors wrapped only %" PRIu64 " times; %u were requested", ring_slots, least,
                least_wraps);
}

void traffic(uint16_t port)
{
    uint64_t received_before[QUEUES], sent_before[QUEUES];
    memcpy(received_before, received, sizeof received);
    memcpy(sent_before, sent, sizeof sent);
    bus_send_to(run_bus, compare_sent, NULL);
    clear(in);
    clear(out);
    alike = hashes = unhashed = 0;
    frames_in(port);
    tell("in ", received);
    printf("       %u hashes equal those of rte_softrss and nic_hash, %u frames have none\n", hashes, unhashed);
    alike = 0;
    frames_out(port);
    tell("out", sent);
    tell_wraps(received_before, sent_before);
    if (!bus_is_settled(run_bus, QUEUES))
        problem("the device isn't at rest");
}

/* ---- counters ---- */

#if RTE_VERSION < RTE_VERSION_NUM(25, 11, 0, 0)
static uint64_t frames_of_queue(uint16_t port, const struct rte_eth_stats *stats, bool sends, unsigned int queue)
{
    (void)port;
    return sends ? stats->q_opackets[queue] : stats->q_ipackets[queue];
}
#else
/* Since 25.11, only the extended statistics count frames by queue. */
static uint64_t frames_of_queue(uint16_t port, const struct rte_eth_stats *stats, bool sends, unsigned int queue)
{
    char name[RTE_ETH_XSTATS_NAME_SIZE];
    uint64_t id, count = 0;
    (void)stats;
    snprintf(name, sizeof name, "%s_q%u_packets", sends ? "tx" : "rx", queue);
    if (rte_eth_xstats_get_id_by_name(port, name, &id) != 0 || rte_eth_xstats_get_by_id(port, &id, &count, 1) != 1)
        problem("the driver reports no counter %s", name);
    return count;
}
#endif

void counters(uint16_t port)
{
    struct rte_eth_stats stats;
    uint64_t all_in = 0, all_out = 0;
    if (rte_eth_stats_get(port, &stats) != 0) {
        problem("the driver reports no counters");
        return;
    }
    for (unsigned int queue = 0; queue < QUEUES; queue++) {
        same("frames received by a queue", frames_of_queue(port, &stats, false, queue), received[queue]);
        same("frames sent by a queue", frames_of_queue(port, &stats, true, queue), sent[queue]);
        all_in += received[queue];
        all_out += sent[queue];
    }
    same("frames in", stats.ipackets, all_in);
    same("frames out", stats.opackets, all_out);
    same("missed and bad frames", stats.imissed + stats.ierrors + stats.oerrors, 0);
    printf("  frames in %" PRIu64 ", out %" PRIu64 ", as the run counts them on each queue; ", stats.ipackets,
           stats.opackets);
    printf("missed and bad %" PRIu64 "\n", stats.imissed + stats.ierrors + stats.oerrors);
    printf("  bytes in %" PRId64 ", out %" PRId64 ": the bench lacks byte counters; the driver subtracts 4 per frame\n",
           (int64_t)stats.ibytes, (int64_t)stats.obytes);
}

/* ---- queues ---- */

static void restart_transmit(uint16_t port)
{
    uint64_t before = sent[0];
    if (rte_eth_dev_tx_queue_stop(port, 0) != 0 || rte_eth_dev_tx_queue_start(port, 0) != 0)
        problem("transmit queue 0 didn't start again");
    hand_over(port, 0, 0, BURST);
    printf("  transmit queue 0: %" PRIu64 " of %u frames are sent after the restart\n", sent[0] - before, BURST);
    same("frames sent by the queue that was started again", sent[0] - before, BURST);
}

/* Delivers the next frame for this queue, starting the search at `*number`. Returns how many descriptors the device
   writes. */
static unsigned int arrive_at(uint16_t queue, unsigned int *number)
{
    struct frame frame;
    do
        frame_make(&frame, (*number)++, FRAME_MAX, card_mac, peer_mac);
    while (queue_of(&frame) != queue);
    arrive(*number - 1);
    return bus_receive(run_bus);
}

static void restart_receive(uint16_t port)
{
    unsigned int number = 0, frames = 0, written, later;
    if (rte_eth_dev_rx_queue_stop(port, 0) != 0 || rte_eth_dev_rx_queue_start(port, 0) != 0)
        problem("receive queue 0 didn't start again");
    unsigned int head = bus_peek(run_bus, NIC_RDH(0)), tail = bus_peek(run_bus, NIC_RDT(0));
    while ((written = arrive_at(0, &number)) > 0)
        frames++;
    later = arrive_at(1, &number);
    printf("  receive queue 0: RDH is %u, RDT %u; the device writes %u frames for it, and the driver sees %u of them;\n"
           "    the next frame is waiting, and the device writes %u descriptors for a later frame to queue 1\n",
           head, tail, frames, take(port, 0), later);
}

uint16_t choose(uint16_t port)
{
    return choose_queues(port, QUEUES, &rss);
}

/* Stops and starts transmit queue 0, then receive queue 0. The frames that the driver then misses aren't a problem:
   docs/CARD.md lists this difference. */
void restart_queues(uint16_t port)
{
    clear(in);
    clear(out);
    restart_transmit(port);
    restart_receive(port);
    refused_end();
    rte_eth_stats_reset(port);
    memset(received, 0, sizeof received);
    memset(sent, 0, sizeof sent);
}
