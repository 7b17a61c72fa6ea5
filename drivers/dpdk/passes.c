#include "passes.h"

#include <inttypes.h>
#include <stdio.h>
#include <string.h>

#include "explain.h"
#include "frames.h"
#include "handlers.h"
#include "hashes.h"
#include "ports.h"
#include "run.h"
#include "verdict.h"

#define TAG_AT 12
#define TAG_BYTES 4
#define TAG_TYPE 0x8100
#define SOME 16 /* frames sent to each of two ports in a row */

/* frames that a port received and sent in a pass */
struct tally {
    unsigned int alike_in, alike_out, hashes, by_queue_in[PORT_QUEUES], by_queue_out[PORT_QUEUES];
};

static struct line_up in[BUS_FUNCTIONS][PORT_QUEUES], out[BUS_FUNCTIONS][PORT_QUEUES];
static struct tally tallies[BUS_FUNCTIONS];
static uint64_t all_in[BUS_FUNCTIONS], all_out[BUS_FUNCTIONS];
static uint64_t alike_in, alike_out, hashes;
static unsigned int gone; /* frames that were sent without being compared */

/* Returns the number of a port's frame in a pass. Each port has a separate range of numbers. */
static uint32_t number_of(unsigned int which, unsigned int frame)
{
    return which * setting.frames + frame;
}

static void clear(unsigned int first, unsigned int last)
{
    for (unsigned int which = first; which <= last; which++) {
        tallies[which] = (struct tally){0};
        for (unsigned int queue = 0; queue < PORT_QUEUES; queue++) {
            line_up_end(&in[which][queue]);
            line_up_end(&out[which][queue]);
            if (!line_up_begin(&in[which][queue], setting.frames) || !line_up_begin(&out[which][queue], setting.frames))
                rte_exit(1, "out of memory\n");
        }
    }
}

static bool make_next(struct line_up *list, struct frame *frame, const uint8_t *to, const uint8_t *from)
{
    uint32_t number;
    if (!line_up_take(list, &number))
        return false;
    frame_make(frame, number, FRAME_MAX, to, from);
    return true;
}

/* ---- from the wire ---- */

static void arrive(unsigned int which, unsigned int frame_number)
{
    struct frame frame;
    uint32_t number = number_of(which, frame_number);
    frame_make(&frame, number, FRAME_MAX, ports[which].mac.addr_bytes, peer_mac);
    line_up_put(&in[which][rss_queue(&rss, &frame, port_queues(which))], number);
    if (!bus_arrive(run_bus, frame.bytes, frame.length)) {
        char who[16];
        snprintf(who, sizeof who, "%s: ", port_name(which));
        refused(who, frame_number);
    }
}

static void compare_in(const struct rte_mbuf *packet, uint16_t queue, void *port_number)
{
    unsigned int which = *(unsigned int *)port_number;
    struct frame frame;
    tallies[which].by_queue_in[queue]++;
    all_in[which]++;
    if (!make_next(&in[which][queue], &frame, ports[which].mac.addr_bytes, peer_mac)) {
        problem("%s, queue %u: an unexpected frame arrived", port_name(which), queue);
        return;
    }
    if (packet->nb_segs == 1 && frame_is(&frame, rte_pktmbuf_mtod(packet, const void *), rte_pktmbuf_pkt_len(packet)))
        tallies[which].alike_in++;
    else
        problem("%s, queue %u: a %u-byte frame arrived changed (%u bytes)", port_name(which), queue, frame.length,
                rte_pktmbuf_pkt_len(packet));
    enum hash hash = hash_compare(packet, &frame, &rss);
    tallies[which].hashes += hash == HASH_RIGHT;
    if (hash == HASH_WRONG)
        problem("%s, queue %u: the hash of a %u-byte frame is wrong", port_name(which), queue, frame.length);
}

static void frames_in(unsigned int first, unsigned int last)
{
    unsigned int many = last - first + 1, total = many * setting.frames;
    for (unsigned int frame = 0; frame < total;) {
        unsigned int burst = RTE_MIN(1 + frame % BURST, total - frame);
        for (unsigned int i = 0; i < burst; i++, frame++)
            arrive(first + frame % many, frame / many);
        bus_receive(run_bus);
        handlers_run();
        for (unsigned int which = first; which <= last; which++)
            port_take(which, compare_in, &which);
    }
}

/* ---- to the wire ---- */

static bool find_queue(uint16_t device, unsigned int *which, uint16_t *queue)
{
    unsigned int each = bus_pool_queues(run_bus);
    if (!each)
        return false;
    *which = device / each == setting.max_vfs ? HOST : device / each + 1;
    *queue = (uint16_t)(device % each);
    return *which < BUS_FUNCTIONS && ports[*which].is_there && *queue < port_queues(*which);
}

static void compare_out(void *of, uint16_t device, const uint8_t *bytes, size_t length)
{
    (void)of;
    struct frame frame;
    unsigned int which;
    uint16_t queue;
    if (!find_queue(device, &which, &queue) ||
        !make_next(&out[which][queue], &frame, peer_mac, ports[which].mac.addr_bytes)) {
        problem("device queue %u: an unexpected %zu-byte frame was sent", device, length);
        return;
    }
    tallies[which].by_queue_out[queue]++;
    all_out[which]++;
    if (frame_is(&frame, bytes, length))
        tallies[which].alike_out++;
    else
        problem("%s, queue %u: a %u-byte frame was sent changed (%zu bytes)", port_name(which), queue, frame.length,
                length);
}

static struct rte_mbuf *packet_of(const struct frame *frame)
{
    struct rte_mbuf *packet = rte_pktmbuf_alloc(pool);
    char *room = packet ? rte_pktmbuf_append(packet, frame->length) : NULL;
    if (room)
        memcpy(room, frame->bytes, frame->length);
    else
        problem("no packet is free");
    return room ? packet : NULL;
}

static void send_burst(unsigned int which, uint16_t queue, unsigned int frame_number, unsigned int burst)
{
    struct rte_mbuf *packets[BURST];
    struct frame frame;
    for (unsigned int i = 0; i < burst; i++) {
        uint32_t number = number_of(which, frame_number + i);
        frame_make(&frame, number, FRAME_MAX, peer_mac, ports[which].mac.addr_bytes);
        packets[i] = packet_of(&frame);
        if (!packets[i])
            return;
        line_up_put(&out[which][queue], number);
    }
    unsigned int sent = rte_eth_tx_burst(ports[which].number, queue, packets, (uint16_t)burst);
    if (sent < burst)
        problem("%s, queue %u accepted only %u of %u frames", port_name(which), queue, sent, burst);
    rte_pktmbuf_free_bulk(packets + sent, burst - sent);
}

static void frames_out(unsigned int first, unsigned int last)
{
    unsigned int turn = 0;
    for (unsigned int frame = 0; frame < setting.frames; turn++) {
        unsigned int burst = RTE_MIN(1 + turn * 7 % BURST, setting.frames - frame);
        for (unsigned int which = first; which <= last; which++)
            send_burst(which, (uint16_t)(turn % port_queues(which)), frame, burst);
        frame += burst;
    }
}

/* ---- the pass ---- */

static void expect_none_left(unsigned int which)
{
    for (unsigned int queue = 0; queue < PORT_QUEUES; queue++) {
        if (line_up_left(&in[which][queue]))
            problem("%s, queue %u: %u frames in are missing", port_name(which), queue, line_up_left(&in[which][queue]));
        if (line_up_left(&out[which][queue]))
            problem("%s, queue %u: %u frames out are missing", port_name(which), queue,
                    line_up_left(&out[which][queue]));
    }
}

static void tell_queues(const unsigned int *by_queue, unsigned int queues)
{
    for (unsigned int queue = 0; queue < queues; queue++)
        printf(" %u", by_queue[queue]);
}

static void tell(unsigned int which)
{
    const struct tally *it = &tallies[which];
    printf("  %-4s  in  %u of %u correct; by queue", port_name(which), it->alike_in, setting.frames);
    tell_queues(it->by_queue_in, port_queues(which));
    printf("; %u hashes correct\n        out %u of %u correct; by queue", it->hashes, it->alike_out, setting.frames);
    tell_queues(it->by_queue_out, port_queues(which));
    printf("\n");
    alike_in += it->alike_in;
    alike_out += it->alike_out;
    hashes += it->hashes;
}

void pass(unsigned int first, unsigned int last)
{
    bus_enter(run_bus, IN_TRAFFIC);
    if (first == last)
        printf("frames of %s alone\n", port_name(first));
    else
        printf("frames of all ports at the same time\n");
    fflush(stdout);
    clear(first, last);
    frames_in(first, last);
    refused_end();
    bus_send_to(run_bus, compare_out, NULL);
    frames_out(first, last);
    bus_send_to(run_bus, NULL, NULL);
    for (unsigned int which = first; which <= last; which++) {
        expect_none_left(which);
        tell(which);
    }
    if (!bus_is_settled(run_bus, BUS_QUEUES))
        problem("the device isn't at rest");
    expect_freed_once();
}

/* The physical function counts all frames of the device, including its virtual functions' frames; each virtual function
   counts its own. */
void pass_counters(void)
{
    bus_enter(run_bus, IN_COUNTERS);
    printf("counters\n");
    for (unsigned int which = 0; which <= setting.functions; which++) {
        struct rte_eth_stats stats;
        uint64_t wanted_in = all_in[which], wanted_out = all_out[which];
        if (failed("rte_eth_stats_get", rte_eth_stats_get(ports[which].number, &stats)))
            continue;
        for (unsigned int i = 1; which == HOST && i <= setting.functions; i++) {
            wanted_in += all_in[i];
            wanted_out += all_out[i];
        }
        printf("  %-4s  frames in %" PRIu64 ", out %" PRIu64 "; bytes in %" PRIu64 ", out %" PRId64 "\n",
               port_name(which), stats.ipackets, stats.opackets, stats.ibytes, (int64_t)stats.obytes);
        same("frames in", stats.ipackets, wanted_in);
        same("frames out", stats.opackets, wanted_out);
        same("frames missed or bad", stats.imissed + stats.ierrors + stats.oerrors, 0);
    }
}

void pass_totals(void)
{
    if (alike_in + alike_out == 0)
        return;
    printf("in all passes %" PRIu64 " frames in and %" PRIu64 " out, unchanged and in order; %" PRIu64
           " hashes correct\n",
           alike_in, alike_out, hashes);
}

/* ---- single frames ---- */

static void make_one(struct frame *frame, const uint8_t to[6], uint16_t tag)
{
    frame_make(frame, 0, FRAME_MAX, to, peer_mac);
    if (!tag)
        return;
    uint8_t *at = frame->bytes + TAG_AT;
    memmove(at + TAG_BYTES, at, frame->length - TAG_AT);
    at[0] = TAG_TYPE >> 8;
    at[1] = TAG_TYPE & 0xFF;
    at[2] = (uint8_t)(tag >> 8);
    at[3] = (uint8_t)tag;
    frame->length += TAG_BYTES;
}

/* The frames that may reach a port; any other frame that arrives is a problem. */
struct known {
    unsigned int which, many;
    const struct frame *frames;
};

static bool is_known(const struct known *known, const struct rte_mbuf *packet)
{
    unsigned int at = 0;
    while (at < known->many &&
           !frame_is(&known->frames[at], rte_pktmbuf_mtod(packet, const void *), rte_pktmbuf_pkt_len(packet)))
        at++;
    return at < known->many;
}

static void expect_the_one(const struct rte_mbuf *packet, uint16_t queue, void *known)
{
    (void)queue;
    if (!is_known(known, packet))
        problem("%s received a frame that differs from the frame sent", port_name(((struct known *)known)->which));
}

static void expect_one_of_them(const struct rte_mbuf *packet, uint16_t queue, void *known)
{
    (void)queue;
    if (!is_known(known, packet))
        problem("%s received an unexpected %u-byte frame", port_name(((struct known *)known)->which),
                rte_pktmbuf_pkt_len(packet));
}

int who_gets(const uint8_t to[6], uint16_t tag)
{
    struct frame frame;
    int who = -1;
    make_one(&frame, to, tag);
    bus_arrive(run_bus, frame.bytes, frame.length);
    bus_receive(run_bus);
    for (unsigned int which = 0; which <= setting.functions; which++) {
        struct known one = {which, 1, &frame};
        unsigned int count = port_take(which, expect_the_one, &one);
        if (count > 1 || (count == 1 && who >= 0))
            problem("one frame arrived more than once, at %s", port_name(which));
        if (count)
            who = (int)which;
    }
    return who;
}

static void count_gone(void *of, uint16_t queue, const uint8_t *frame, size_t length)
{
    (void)of, (void)queue, (void)frame, (void)length;
    gone++;
}

unsigned int send_one(unsigned int which, const uint8_t to[6])
{
    struct frame frame;
    frame_make(&frame, 0, FRAME_MAX, to, ports[which].mac.addr_bytes);
    struct rte_mbuf *packet = packet_of(&frame);
    gone = 0;
    bus_send_to(run_bus, count_gone, NULL);
    if (packet && rte_eth_tx_burst(ports[which].number, 0, &packet, 1) != 1)
        rte_pktmbuf_free(packet);
    bus_send_to(run_bus, NULL, NULL);
    return gone;
}

void flood(unsigned int which, unsigned int first, unsigned int step, unsigned int frames)
{
    struct frame frame;
    for (unsigned int i = 0; i < frames; i++) {
        frame_make(&frame, first + i * step, FRAME_MAX, ports[which].mac.addr_bytes, peer_mac);
        bus_arrive(run_bus, frame.bytes, frame.length);
        bus_receive(run_bus);
    }
}

void frames_of_two(unsigned int frames, unsigned int got[2])
{
    static struct frame some[2 * SOME];
    for (unsigned int first = 0; first < frames; first += SOME) {
        unsigned int many = 0;
        for (unsigned int number = first; number < first + SOME && number < frames; number++)
            for (unsigned int which = 0; which < 2; which++) {
                frame_make(&some[many], number, FRAME_MAX, ports[which].mac.addr_bytes, peer_mac);
                bus_arrive(run_bus, some[many].bytes, some[many].length);
                many++;
            }
        bus_receive(run_bus);
        for (unsigned int which = 0; which < 2; which++) {
            struct known all = {which, many, some};
            got[which] += port_take(which, expect_one_of_them, &all);
        }
    }
}
