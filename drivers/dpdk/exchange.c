/* Runs DPDK's ixgbe driver on the bench: probe, start, frames each way over four queues with RSS, counters, filters,
   restart of a queue, stop, start, frames, close. drivers/dpdk/run compiles and calls it.

     exchange [--scalar | --segments] [--frames N] [--slots N] [--wraps N] [--device ID] [--without SWSM | ANLP1]
              [--with EICS | EERD] [--strays FILE] [--loud] [--turn in | out]
         the run, with N frames each way in each pass (1,000 by default) and N descriptors in each ring (128);
         --wraps: a pass fails if a ring wraps fewer than N times; --turn: the shim changes a byte of one frame
     exchange --speed
         the measurement

   Status 0: all was correct; 1: something was wrong; 3: unknown arguments. */
#include "exchange.h"

#include <stdio.h>
#include <stdlib.h>
#include <string.h>

#include "card.h"
#include "explain.h"
#include "frames.h"
#include "run.h"
#include "verdict.h"

#define DEVICE 0x10F7 /* 82599EB, KX4 */
#define MEBIBYTES 48
#define PACKETS 4095
#define PLAIN_BUFFER 2048
#define FIFO 64
#define FRAMES_MOST 10000000
#define SLOTS_LEAST 64 /* the driver's fast functions need 32 more than their thresholds */
#define SLOTS_MOST 4096

enum phase { IN_PROBE, IN_START, IN_TRAFFIC, IN_COUNTERS, IN_FILTERS, IN_RESTART, IN_STOP, IN_CLOSE };

static const char *const phases[] = {
    "probe", "start", "traffic", "counters", "filters", "restart", "stop", "close", NULL,
};

struct words {
    struct dpdk_options options; /* for the measurement with the null driver */
    uint16_t device;
};

bool in_segments;
unsigned int frames_of_pass = 1000;
unsigned int ring_slots = SLOTS, least_wraps;

/* ---- the phases of the run ---- */

static bool probe(uint16_t device, uint16_t *port)
{
    begin(IN_PROBE, "probe");
    int status = card_probe(BUS_PHYSICAL, device, 0, 0);
    if (failed("the driver's probe", status))
        return false;
    *port = card_port(BUS_PHYSICAL);
    struct rte_ether_addr mac;
    if (*port == RTE_MAX_ETHPORTS || failed("rte_eth_macaddr_get", rte_eth_macaddr_get(*port, &mac)))
        return false;
    if (memcmp(mac.addr_bytes, card_mac, sizeof card_mac) != 0)
        problem("the driver's address differs from the one in the EEPROM");
    printf("  %s drives device 8086:%04x, address " RTE_ETHER_ADDR_PRT_FMT " from the EEPROM\n",
           card_driver(BUS_PHYSICAL), device, RTE_ETHER_ADDR_BYTES(&mac));
    return true;
}

static bool configure(uint16_t port)
{
    const char *what;
    struct rte_eth_conf configuration = {0};
    ask_for_rss(&configuration);
    if (in_segments) {
        configuration.rxmode.offloads |= RTE_ETH_RX_OFFLOAD_SCATTER;
        configuration.txmode.offloads |= RTE_ETH_TX_OFFLOAD_MULTI_SEGS;
    }
    int status = port_configure(port, &configuration, QUEUES, ring_slots, &what);
    if (failed(what, status))
        return false;
    for (uint16_t queue = 0; queue < QUEUES; queue++)
        if (failed("the counter mapping", rte_eth_dev_set_rx_queue_stats_mapping(port, queue, (uint8_t)queue)) ||
            failed("the counter mapping", rte_eth_dev_set_tx_queue_stats_mapping(port, queue, (uint8_t)queue)))
            return false;
    return true;
}

static bool start(uint16_t port)
{
    begin(IN_START, "start");
    if (failed("rte_eth_dev_start", rte_eth_dev_start(port)) || failed("the redirection table", choose(port)))
        return false;
    struct rte_eth_link link;
    if (failed("rte_eth_link_get_nowait", rte_eth_link_get_nowait(port, &link)))
        return false;
    printf("  %u receive and %u transmit queues of %u descriptors; link %s, %u Mb/s\n", QUEUES, QUEUES, ring_slots,
           link.link_status ? "up" : "down", link.link_speed);
    printf("  it receives with %s, sends with %s\n", receives_by(port), sends_by(port));
    if (!link.link_status)
        problem("the link is down");
    return true;
}

static bool stop(uint16_t port)
{
    begin(IN_STOP, "stop");
    return !failed("rte_eth_dev_stop", rte_eth_dev_stop(port));
}

static void close_card(void)
{
    begin(IN_CLOSE, "close");
    failed("the driver's remove", card_remove(BUS_PHYSICAL));
    expect_freed_once();
    unsigned int lost = rte_mempool_in_use_count(pool);
    if (lost)
        problem("%u packets aren't back in their pool", lost);
    else
        printf("  all %u packets are back in their pool\n", PACKETS);
}

static void pass(uint16_t port)
{
    begin(IN_TRAFFIC, "traffic");
    traffic(port);
    expect_freed_once();
    begin(IN_COUNTERS, "counters");
    counters(port);
}

static bool run(uint16_t device)
{
    uint16_t port;
    if (!probe(device, &port) || !configure(port) || !start(port))
        return false;
    pass(port);
    begin(IN_FILTERS, "filters");
    filters(port);
    begin(IN_RESTART, "a queue is stopped and started again");
    restart_queues(port);
    if (!stop(port) || !start(port))
        return false;
    pass(port);
    if (!stop(port))
        return false;
    close_card();
    return true;
}

static bool measured(uint16_t device)
{
    uint16_t port;
    if (!probe(device, &port) || !configure(port) || !start(port))
        return false;
    uint16_t null = port == 0 ? 1 : 0;
    if (measure(port, null) != 0 || !stop(port))
        return false;
    close_card();
    return true;
}

/* ---- arguments ---- */

/* Parses an option with a value. Returns false if either is unknown. */
static bool read_pair(const char *word, const char *next, struct words *it)
{
    unsigned int answer = bus_answer_named(next), *answers = &it->options.bus.answers;
    if (strcmp(word, "--frames") == 0)
        return read_number(next, 1, FRAMES_MOST, &frames_of_pass);
    if (strcmp(word, "--slots") == 0)
        return read_number(next, SLOTS_LEAST, SLOTS_MOST, &ring_slots) && ring_slots % 8 == 0;
    if (strcmp(word, "--wraps") == 0)
        return read_number(next, 1, FRAMES_MOST, &least_wraps);
    if (strcmp(word, "--device") == 0)
        return read_device(next, &it->device);
    if (strcmp(word, "--with") == 0)
        return (*answers |= answer) && answer;
    if (strcmp(word, "--without") != 0)
        return dpdk_pair(word, next, &it->options);
    bool is_given = answer & *answers;
    *answers &= ~answer;
    return is_given;
}

static bool read_words(int count, char **words, struct words *it)
{
    *it = (struct words){
        .options = {.bus = {.fifo = FIFO, .answers = BUS_SWSM | BUS_ANLP1, .phases = phases},
                    .name = "exchange",
                    .mebibytes = MEBIBYTES,
                    .packets = PACKETS},
        .device = DEVICE,
    };
    for (int i = 1; i < count; i++) {
        if (strcmp(words[i], "--segments") == 0)
            in_segments = true;
        else if (strcmp(words[i], "--speed") == 0)
            it->options.has_null_driver = true;
        else if (i + 1 < count && read_pair(words[i], words[i + 1], it))
            i++;
        else if (!dpdk_word(words[i], &it->options))
            return false;
    }
    it->options.buffer = in_segments ? SMALL_BUFFER : PLAIN_BUFFER;
    return true;
}

int main(int count, char **arguments)
{
    struct words words;
    if (!read_words(count, arguments, &words)) {
        fprintf(stderr, "exchange [--scalar | --segments] [--frames N] [--slots N] [--wraps N] [--device ID]\n"
                        "    [--without SWSM | ANLP1] [--with EICS | EERD] [--strays FILE] [--loud] [--turn in | out]\n"
                        "exchange --speed\n");
        return 3;
    }
    if (dpdk_start(&words.options)) {
        bus_tell_answers(words.options.bus.answers);
        if (words.options.has_null_driver ? measured(words.device) : run(words.device)) {
            run_tell_counts();
            run_check_counts(0, 0);
        }
    }
    return dpdk_end(&words.options);
}
