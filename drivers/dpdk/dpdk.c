#include "dpdk.h"

#include <rte_cycles.h>
#include <rte_eal.h>
#include <rte_errno.h>
#include <rte_memory.h>
#include <stdio.h>
#include <string.h>
#include <unistd.h>

#include "bench.h"
#include "crash.h"
#include "explain.h"
#include "forms.h"
#include "run.h"
#include "seam.h"
#include "verdict.h"
#include "window.h"

#define ARGUMENTS 16
#define PACKETS_KEPT 64 /* packets cached per core */
#define SEED 82599      /* seeds DPDK's random numbers, from which the PF's driver takes its VFs' addresses */
#define FLIPPED 10      /* the frame in which --turn changes a byte */

struct rte_mempool *pool;
const uint8_t card_mac[6] = {0x02, 0x00, 0x00, 0x00, 0x82, 0x99};
const uint8_t peer_mac[6] = {0x02, 0x00, 0x00, 0x00, 0x00, 0x01};
const uint8_t rss_key[RSS_KEY_BYTES] = {
    0x3a, 0x91, 0x5c, 0xe7, 0x08, 0x4f, 0xd2, 0x66, 0xb9, 0x13, /**/
    0x7e, 0xa0, 0xf5, 0x2b, 0x84, 0xc8, 0x1d, 0x60, 0x97, 0xee, /**/
    0x45, 0x32, 0xdb, 0x09, 0x78, 0xac, 0x56, 0xf1, 0x0e, 0xc3, /**/
    0x9a, 0x27, 0xb4, 0x6d, 0x80, 0x15, 0xea, 0x5f, 0xd9, 0x42,
};
static bool is_up, is_open;

/* Lets each lcore run on any processor. */
static void tell_lcores(char *text, size_t room, unsigned int more)
{
    long last = sysconf(_SC_NPROCESSORS_ONLN) - 1;
    int length = snprintf(text, room, "--lcores=0@(0-%ld)", last);
    for (unsigned int lcore = 1; lcore <= more; lcore++)
        length += snprintf(text + length, room - (size_t)length, ",%u@(0-%ld)", lcore, last);
}

/* Starts DPDK with its memory below 128 MiB, the bench's limit for bus addresses, and without huge pages, PCI or
   files. */
static int start_layer(const struct dpdk_options *options)
{
    char cores[96], mebibytes[16];
    tell_lcores(cores, sizeof cores, options->lcores);
    snprintf(mebibytes, sizeof mebibytes, "%u", options->mebibytes);
    char *arguments[ARGUMENTS] = {
        (char *)(uintptr_t)options->name,
        "--no-huge",
        "--iova-mode=va",
        "--base-virtaddr=0x400000",
        "-m",
        mebibytes,
        "--no-pci",
        "--no-shconf",
        "--no-telemetry",
        cores,
        options->loud ? "--log-level=*:debug" : "--log-level=*:error",
    };
    int count = 11;
    if (options->scalar)
        arguments[count++] = "--force-max-simd-bitwidth=64";
    if (options->has_null_driver)
        arguments[count++] = "--vdev=net_null0,size=60,copy=1";
    return rte_eal_init(count, arguments);
}

/* With --iova-mode=va, a bus address equals the address in the process. */
static int lend(const struct rte_memseg_list *list, void *argument)
{
    size_t *all = argument;
    *all += list->len;
    return bench_lend((uintptr_t)list->base_va, list->base_va, list->len) ? 0 : -1;
}

static bool make_pool(const struct dpdk_options *options)
{
    pool = rte_pktmbuf_pool_create("packets", options->packets, PACKETS_KEPT, 0,
                                   (uint16_t)(options->buffer + RTE_PKTMBUF_HEADROOM), SOCKET_ID_ANY);
    return pool || !failed("rte_pktmbuf_pool_create", -rte_errno);
}

bool dpdk_start(const struct dpdk_options *options)
{
    size_t lent = 0;
    struct bus_options bus = options->bus;
    memcpy(bus.mac, card_mac, sizeof card_mac);
    bus.calls.fault = explain_fault;
    crash_begin();
    if (start_layer(options) < 0) {
        problem("DPDK's start-up: %s", rte_strerror(rte_errno));
        return false;
    }
    is_up = true;
    rte_srand(SEED);
    rte_delay_us_callback_register(seam_wait);
    if (!bench_open(&bus) || !window_open(bus.functions)) {
        problem("can't open the bench: out of memory, or the source of its EEPROM image was refused");
        return false;
    }
    if (rte_memseg_list_walk(lend, &lent) != 0) {
        problem("DPDK's memory isn't below 128 MiB, the bench's limit");
        return false;
    }
    printf("%zu MiB of DPDK's memory are lent to the device\n", lent >> 20);
    return is_open = make_pool(options);
}

int dpdk_end(const struct dpdk_options *options)
{
    if (is_open) {
        if (options->strays)
            run_save_strays(options->strays);
        bench_close();
        window_close();
    }
    int status = verdict();
    if (is_up)
        rte_eal_cleanup();
    return status;
}

void begin(unsigned int phase, const char *name)
{
    bus_enter(run_bus, phase);
    printf("%s\n", name);
    fflush(stdout);
}

bool failed(const char *what, int status)
{
    if (status == 0)
        return false;
    problem("%s returns %d (%s)", what, status, rte_strerror(-status));
    return true;
}

/* ---- arguments ---- */

bool dpdk_word(const char *word, struct dpdk_options *options)
{
    options->scalar |= strcmp(word, "--scalar") == 0;
    options->loud |= strcmp(word, "--loud") == 0;
    return strcmp(word, "--scalar") == 0 || strcmp(word, "--loud") == 0;
}

bool dpdk_pair(const char *word, const char *next, struct dpdk_options *options)
{
    bool is_in = strcmp(next, "in") == 0;
    if (strcmp(word, "--strays") == 0)
        return *(options->strays = next) != 0;
    if (strcmp(word, "--turn") != 0 || (!is_in && strcmp(next, "out") != 0))
        return false;
    *(is_in ? &options->bus.turn_in : &options->bus.turn_out) = FLIPPED;
    return true;
}

/* ---- ports ---- */

int port_configure(uint16_t port, const struct rte_eth_conf *configuration, unsigned int queues, unsigned int slots,
                   const char **what)
{
    *what = "rte_eth_dev_configure";
    int status = rte_eth_dev_configure(port, (uint16_t)queues, (uint16_t)queues, configuration);
    for (uint16_t queue = 0; queue < queues && status == 0; queue++) {
        *what = "rte_eth_rx_queue_setup";
        status = rte_eth_rx_queue_setup(port, queue, (uint16_t)slots, SOCKET_ID_ANY, NULL, pool);
        if (status != 0)
            break;
        *what = "rte_eth_tx_queue_setup";
        status = rte_eth_tx_queue_setup(port, queue, (uint16_t)slots, SOCKET_ID_ANY, NULL);
    }
    return status;
}

unsigned int take_packets(uint16_t port, uint16_t queue, look_at *look, void *argument)
{
    struct rte_mbuf *packets[BURST];
    unsigned int all = 0;
    uint16_t count;
    while ((count = rte_eth_rx_burst(port, queue, packets, BURST)) > 0) {
        for (uint16_t i = 0; look && i < count; i++)
            look(packets[i], queue, argument);
        rte_pktmbuf_free_bulk(packets, count);
        all += count;
    }
    return all;
}

void ask_for_rss(struct rte_eth_conf *configuration)
{
    configuration->rxmode.mq_mode = RTE_ETH_MQ_RX_RSS;
    configuration->rxmode.offloads |= RTE_ETH_RX_OFFLOAD_RSS_HASH;
    configuration->rx_adv_conf.rss_conf = (struct rte_eth_rss_conf){
        .rss_key = (uint8_t *)(uintptr_t)rss_key,
        .rss_key_len = RSS_KEY_BYTES,
        .rss_hf = RTE_ETH_RSS_IPV4 | RTE_ETH_RSS_NONFRAG_IPV4_TCP | RTE_ETH_RSS_NONFRAG_IPV4_UDP | RTE_ETH_RSS_IPV6 |
                  RTE_ETH_RSS_NONFRAG_IPV6_TCP | RTE_ETH_RSS_NONFRAG_IPV6_UDP,
    };
}

const char *receives_by(uint16_t port)
{
    static const struct {
        eth_rx_burst_t function;
        const char *name;
    } ways[] = {
        {ixgbe_recv_pkts_vec, "ixgbe_recv_pkts_vec"},
        {ixgbe_recv_pkts_bulk_alloc, "ixgbe_recv_pkts_bulk_alloc"},
        {ixgbe_recv_scattered_pkts_vec, "ixgbe_recv_scattered_pkts_vec"},
        {ixgbe_recv_pkts_lro_single_alloc, "ixgbe_recv_pkts_lro_single_alloc"},
        {ixgbe_recv_pkts_lro_bulk_alloc, "ixgbe_recv_pkts_lro_bulk_alloc"},
        {ixgbe_recv_pkts, "ixgbe_recv_pkts"},
    };
    for (size_t i = 0; i < RTE_DIM(ways); i++)
        if (rte_eth_fp_ops[port].rx_pkt_burst == ways[i].function)
            return ways[i].name;
    return "another";
}

const char *sends_by(uint16_t port)
{
    eth_tx_burst_t it = rte_eth_fp_ops[port].tx_pkt_burst;
    return it == ixgbe_xmit_pkts          ? "ixgbe_xmit_pkts"
           : it == ixgbe_xmit_pkts_simple ? "ixgbe_xmit_pkts_simple"
                                          : "its vector function";
}
