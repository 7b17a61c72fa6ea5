/* Measures how many 60-byte frames DPDK's ixgbe driver receives and sends per second on the bench, compared with DPDK's
   null driver. */
#include "exchange.h"

#include <stdlib.h>
#include <string.h>
#include <time.h>

#include "frames.h"
#include "run.h"
#include "verdict.h"

#define ROUNDS 5
#define SECONDS 1.0
#define TURNS 64     /* bursts between two readings of the clock */
#define ALL_KINDS 64 /* frames with different addresses, so that every queue gets some */

static uint8_t frames[ALL_KINDS][FRAME_MIN];
static uint64_t gone;

static void count_sent(void *of, uint16_t queue, const uint8_t *frame, size_t length)
{
    (void)of, (void)queue, (void)frame;
    gone += length == FRAME_MIN;
}

static void make_frames(void)
{
    static struct frame frame;
    for (unsigned int kind = 0; kind < ALL_KINDS; kind++) {
        frame_make(&frame, 7 * 1455 * kind, FRAME_MAX, card_mac, peer_mac); /* TCP over IPv4, 60 bytes */
        memcpy(frames[kind], frame.bytes, FRAME_MIN);
    }
}

static void arrive_burst(void)
{
    static unsigned int next;
    for (unsigned int i = 0; i < BURST; i++)
        bus_arrive(run_bus, frames[next++ % ALL_KINDS], FRAME_MIN);
    bus_receive(run_bus);
}

/* Sends the frames received on each queue back on the same queue. */
static unsigned int echo(uint16_t port)
{
    struct rte_mbuf *packets[BURST];
    unsigned int all = 0;
    for (uint16_t queue = 0; queue < QUEUES; queue++) {
        uint16_t count = rte_eth_rx_burst(port, queue, packets, BURST);
        uint16_t taken = rte_eth_tx_burst(port, queue, packets, count);
        rte_pktmbuf_free_bulk(packets + taken, count - taken);
        all += taken;
    }
    return all;
}

/* Returns the CPU seconds of this thread alone. */
static double clock_seconds(void)
{
    struct timespec now;
    clock_gettime(CLOCK_THREAD_CPUTIME_ID, &now);
    return (double)now.tv_sec + (double)now.tv_nsec / 1e9;
}

/* Measures frames per CPU second, for about SECONDS seconds. */
static double round_of(uint16_t port, bool is_bench)
{
    double start = clock_seconds(), spent;
    uint64_t all = 0;
    do {
        for (unsigned int turn = 0; turn < TURNS; turn++) {
            if (is_bench)
                arrive_burst();
            all += echo(port);
        }
        spent = clock_seconds() - start;
    } while (spent < SECONDS);
    return (double)all / spent;
}

static int by_size(const void *left, const void *right)
{
    double a = *(const double *)left, b = *(const double *)right;
    return (a > b) - (a < b);
}

static void tell(const char *name, double *rates)
{
    qsort(rates, ROUNDS, sizeof *rates, by_size);
    double middle = rates[ROUNDS / 2];
    printf("  %-28s %12.0f frames a second (%.0f to %.0f), %.0f ns a frame\n", name, middle, rates[0],
           rates[ROUNDS - 1], 1e9 / middle);
}

int measure(uint16_t card, uint16_t null)
{
    const char *what;
    struct rte_eth_conf plain = {0};
    if (port_configure(null, &plain, QUEUES, SLOTS, &what) != 0 || rte_eth_dev_start(null) != 0) {
        problem("the null driver didn't start");
        return -1;
    }
    double bench[ROUNDS], nothing[ROUNDS];
    make_frames();
    bus_send_to(run_bus, count_sent, NULL);
    printf("60-byte frames in and out, %u queues, bursts of %u; median of %u rounds (minimum to maximum)\n", QUEUES,
           BURST, ROUNDS);
    for (unsigned int round = 0; round < ROUNDS; round++) {
        fprintf(stderr, "round %u of %u, about %.0f s\n", round + 1, ROUNDS, 2.0 * SECONDS);
        bench[round] = round_of(card, true);
        nothing[round] = round_of(null, false);
    }
    tell("ixgbe's driver, the bench", bench);
    tell("the null driver, no device", nothing);
    if (gone == 0)
        problem("no frame was sent");
    rte_eth_dev_stop(null);
    rte_eth_dev_close(null);
    return 0;
}
