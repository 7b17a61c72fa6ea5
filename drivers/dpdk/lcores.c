/* Two of DPDK's lcores in one process, each with its own receive and transmit queue. A third lcore acts as the wire.
   drivers/dpdk/run --lcores compiles and calls it.

     lcores [--frames N] [--scalar] [--strays FILE] [--loud] [--turn in | out]

   N frames each way (10,000 by default). Each frame that arrives must reach the queue that its hash selects, and each
   frame sent must leave from the queue that it was given to: unchanged, and in its queue's order. Status 0: all was
   correct; 1: something was wrong; 3: unknown arguments. */
#include <rte_cycles.h>
#include <rte_launch.h>
#include <rte_lcore.h>
#include <rte_pause.h>
#include <stdatomic.h>
#include <stdio.h>
#include <string.h>

#include "frames.h"
#include "ports.h"
#include "run.h"
#include "turns.h"
#include "verdict.h"

enum { LCORES = 2, FIFO = 64, MEBIBYTES = 48, PACKETS = 4095, BUFFER = 2048, FRAMES_MOST = 1000000 };
#define IN_FLIGHT (SLOTS / 2) /* a queue's frames that wait on the wire or in its ring */
#define REST 10               /* microseconds */
#define PATIENCE 20           /* seconds without a frame before a run gives up */

/* A queue each way. `in`, which the wire fills, and sent frames are accessed only while the device is acquired. */
static struct lcore {
    uint16_t queue;
    struct line_up in, out;
    unsigned int given; /* frames handed to the driver */
    unsigned int alike_in, alike_out, other_in, other_out;
} lcores[LCORES];
static atomic_uint passed, inside, together;
static atomic_bool is_wire_done, is_given_up;

/* ---- an lcore's work ---- */

static void compare(struct lcore *it, const struct rte_mbuf *packet)
{
    struct frame frame;
    uint32_t number;
    bool is_alike = line_up_take(&it->in, &number);
    if (is_alike) {
        frame_make(&frame, number, FRAME_MAX, card_mac, peer_mac);
        is_alike = frame_is(&frame, rte_pktmbuf_mtod(packet, const void *), rte_pktmbuf_pkt_len(packet));
    }
    it->alike_in += is_alike;
    it->other_in += !is_alike;
}

static void receive(struct lcore *it)
{
    struct rte_mbuf *packets[BURST];
    uint16_t count = rte_eth_rx_burst(ports[HOST].number, it->queue, packets, BURST);
    for (uint16_t i = 0; i < count; i++)
        compare(it, packets[i]);
    rte_pktmbuf_free_bulk(packets, count);
    atomic_fetch_add(&passed, count);
}

/* Builds the next packet that an lcore sends. The two queues share the frame numbers: each sends every second frame. */
static struct rte_mbuf *next_packet(struct lcore *it)
{
    struct frame frame;
    uint32_t number = it->given * LCORES + it->queue;
    struct rte_mbuf *packet = number < setting.frames ? rte_pktmbuf_alloc(pool) : NULL;
    if (!packet)
        return NULL;
    frame_make(&frame, number, FRAME_MAX, peer_mac, card_mac);
    memcpy(rte_pktmbuf_append(packet, frame.length), frame.bytes, frame.length);
    return packet;
}

static void transmit(struct lcore *it)
{
    struct rte_mbuf *packet;
    for (unsigned int i = 0; i < BURST && (packet = next_packet(it)); i++) {
        line_up_put(&it->out, it->given * LCORES + it->queue);
        if (rte_eth_tx_burst(ports[HOST].number, it->queue, &packet, 1) != 1) {
            rte_pktmbuf_free(packet);
            it->out.put--;
            return;
        }
        it->given++;
    }
}

static bool is_over(const struct lcore *it)
{
    bool is_all_out = it->given * LCORES + it->queue >= setting.frames;
    return is_given_up || (is_all_out && is_wire_done && !line_up_left(&it->in));
}

static int work(void *lcore)
{
    for (bool goes_on = true; goes_on;) {
        turns_enter();
        if (atomic_fetch_add(&inside, 1) == LCORES - 1)
            atomic_fetch_add(&together, 1);
        receive(lcore);
        transmit(lcore);
        goes_on = !is_over(lcore);
        atomic_fetch_sub(&inside, 1);
        turns_leave();
        rte_pause();
    }
    return 0;
}

/* ---- the wire ---- */

static void go_out(void *of, uint16_t queue, const uint8_t *bytes, size_t length)
{
    (void)of;
    struct frame frame;
    uint32_t number;
    struct lcore *it = &lcores[queue % LCORES];
    bool is_alike = queue < LCORES && line_up_take(&it->out, &number);
    if (is_alike) {
        frame_make(&frame, number, FRAME_MAX, peer_mac, card_mac);
        is_alike = frame_is(&frame, bytes, length);
    }
    it->alike_out += is_alike;
    it->other_out += !is_alike;
    atomic_fetch_add(&passed, 1);
}

/* Delivers frames, starting with this number, while their queues have room. Returns the next number. */
static uint32_t let_in(uint32_t number)
{
    for (unsigned int i = 0; i < BURST && number < setting.frames; i++, number++) {
        struct frame frame;
        frame_make(&frame, number, FRAME_MAX, card_mac, peer_mac);
        struct lcore *it = &lcores[rss_queue(&rss, &frame, LCORES)];
        if (line_up_left(&it->in) >= IN_FLIGHT)
            break;
        line_up_put(&it->in, number);
        bus_arrive(run_bus, frame.bytes, frame.length);
    }
    bus_receive(run_bus);
    return number;
}

/* Stops the lcores if no frame has been transferred for a long time. */
static void watch(unsigned int *before, double *since)
{
    unsigned int now = passed;
    if (now != *before)
        *since = seconds();
    else if (seconds() - *since > PATIENCE && !atomic_exchange(&is_given_up, true))
        problem("no frame was received or sent for %d s", PATIENCE);
    *before = now;
}

static bool is_running(void)
{
    for (unsigned int i = 0; i < LCORES; i++)
        if (rte_eal_get_lcore_state(i + 1) == RUNNING)
            return true;
    return false;
}

static void be_wire(void)
{
    uint32_t number = 0;
    unsigned int before = 0;
    double since = seconds();
    while (is_running()) {
        turns_take();
        number = let_in(number);
        is_wire_done = number >= setting.frames;
        turns_give_back();
        watch(&before, &since);
        rte_delay_us_sleep(REST); /* leaves the CPU to the lcores */
    }
}

/* ---- the run ---- */

static bool launch(void)
{
    for (uint16_t i = 0; i < LCORES; i++) {
        lcores[i].queue = i;
        if (!line_up_begin(&lcores[i].in, setting.frames) || !line_up_begin(&lcores[i].out, setting.frames))
            rte_exit(1, "out of memory\n");
        if (failed("rte_eal_remote_launch", rte_eal_remote_launch(work, &lcores[i], i + 1u)))
            return false;
    }
    return true;
}

static void tell(const struct lcore *it)
{
    printf("  lcore %u, queue %u: %u in and %u out, unchanged and in order\n", it->queue + 1u, it->queue, it->alike_in,
           it->alike_out);
    if (it->other_in || it->other_out)
        problem("queue %u: %u frames in and %u out were changed or out of order", it->queue, it->other_in,
                it->other_out);
}

static void traffic(void)
{
    bus_enter(run_bus, IN_TRAFFIC);
    printf("two lcores, each with one queue each way\n");
    fflush(stdout);
    bus_send_to(run_bus, go_out, NULL);
    turns_share();
    if (!launch())
        is_given_up = true;
    be_wire();
    rte_eal_mp_wait_lcore();
    bus_send_to(run_bus, NULL, NULL);
    unsigned int in = 0, out = 0;
    for (unsigned int i = 0; i < LCORES; i++) {
        tell(&lcores[i]);
        in += lcores[i].alike_in + lcores[i].other_in;
        out += lcores[i].alike_out + lcores[i].other_out;
        line_up_end(&lcores[i].in);
        line_up_end(&lcores[i].out);
    }
    same("frames in", in, setting.frames);
    same("frames out", out, setting.frames);
    printf("  in all %u frames in and %u out; both lcores were in the driver at the same time %u times\n", in, out,
           together);
    if (!bus_is_settled(run_bus, BUS_QUEUES))
        problem("the device isn't at rest");
}

static void run(const struct dpdk_options *options)
{
    bus_tell_answers(options->bus.answers);
    if (!port_probe(HOST) || !port_start(HOST))
        return;
    traffic();
    if (!port_stop(HOST) || !port_remove(HOST))
        return;
    unsigned int lost = rte_mempool_in_use_count(pool);
    if (lost)
        problem("%u packets aren't back in their pool", lost);
    run_tell_counts();
    run_check_counts(0, 0);
}

static bool read_words(int count, char **words, struct dpdk_options *it)
{
    *it = (struct dpdk_options){.bus = {.fifo = FIFO, .answers = BUS_SWSM | BUS_ANLP1, .phases = phase_names},
                                .name = "lcores",
                                .mebibytes = MEBIBYTES,
                                .packets = PACKETS,
                                .buffer = BUFFER,
                                .lcores = LCORES};
    setting = (struct setting){.queues = LCORES, .slots = SLOTS, .frames = 10000, .has_rss = true};
    for (int i = 1; i < count; i++) {
        if (i + 1 < count && strcmp(words[i], "--frames") == 0) {
            if (!read_number(words[++i], 1, FRAMES_MOST, &setting.frames))
                return false;
        } else if (i + 1 < count && dpdk_pair(words[i], words[i + 1], it)) {
            i++;
        } else if (!dpdk_word(words[i], it)) {
            return false;
        }
    }
    return true;
}

int main(int count, char **words)
{
    struct dpdk_options options;
    if (!read_words(count, words, &options)) {
        fprintf(stderr, "lcores [--frames N] [--scalar] [--strays FILE] [--loud] [--turn in | out]\n");
        return 3;
    }
    if (dpdk_start(&options))
        run(&options);
    return dpdk_end(&options);
}
