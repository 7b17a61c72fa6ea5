/* Checks which frames the driver receives with each of these filters: its own address, further addresses, promiscuous
   and multicast modes. */
#include "exchange.h"

#include <string.h>

#include "frames.h"
#include "run.h"
#include "verdict.h"

/* Whether a frame to this address reaches the driver unchanged. Polls for a whole burst, because the driver's vector
   functions return nothing if a caller requests a single packet. */
static bool comes_in(uint16_t port, const struct rte_ether_addr *to)
{
    struct frame frame;
    struct rte_mbuf *packets[BURST];
    bool alike = false;
    frame_make(&frame, 0, FRAME_MAX, to->addr_bytes, peer_mac);
    if (!bus_arrive(run_bus, frame.bytes, frame.length))
        return false;
    bus_receive(run_bus);
    for (uint16_t queue = 0; queue < QUEUES; queue++) {
        uint16_t count = rte_eth_rx_burst(port, queue, packets, BURST);
        if (count == 1)
            alike = frame_is(&frame, rte_pktmbuf_mtod(packets[0], const void *), rte_pktmbuf_pkt_len(packets[0]));
        rte_pktmbuf_free_bulk(packets, count);
    }
    return alike;
}

static struct rte_ether_addr own;
static struct rte_ether_addr other = {{0x02, 0, 0, 0, 0, 0x77}};
static struct rte_ether_addr group = {{0x01, 0, 0x5e, 0, 0, 0x05}};
static struct rte_ether_addr second = {{0x01, 0, 0x5e, 0x01, 0x02, 0x03}};
static struct rte_ether_addr everyone = {{0xff, 0xff, 0xff, 0xff, 0xff, 0xff}};

static int nothing(uint16_t port)
{
    (void)port;
    return 0;
}

static int add(uint16_t port)
{
    return rte_eth_dev_mac_addr_add(port, &other, 0);
}

static int take_away(uint16_t port)
{
    return rte_eth_dev_mac_addr_remove(port, &other);
}

static int list(uint16_t port)
{
    return rte_eth_dev_set_mc_addr_list(port, &group, 1);
}

static int list_none(uint16_t port)
{
    return rte_eth_dev_set_mc_addr_list(port, NULL, 0);
}

/* each request to the driver, and the frames that it then receives */
static const struct {
    const char *what;
    int (*ask)(uint16_t port);
    bool other, group, second;
} rows[] = {
    {"initially", nothing, false, false, false},
    {"promiscuous", rte_eth_promiscuous_enable, true, true, true},
    {"promiscuous off", rte_eth_promiscuous_disable, false, false, false},
    {"all multicast", rte_eth_allmulticast_enable, false, true, true},
    {"all multicast off", rte_eth_allmulticast_disable, false, false, false},
    {"a second address", add, true, false, false},
    {"address removed", take_away, false, false, false},
    {"a multicast address", list, false, true, false},
    {"address removed", list_none, false, false, false},
};

static const char *arrival(uint16_t port, const struct rte_ether_addr *to, bool expected, const char *what)
{
    bool in = comes_in(port, to);
    if (in != expected)
        problem("%s: a frame to " RTE_ETHER_ADDR_PRT_FMT " %s", what, RTE_ETHER_ADDR_BYTES(to),
                in ? "arrived" : "didn't arrive");
    return in ? "in" : "-";
}

void filters(uint16_t port)
{
    memcpy(own.addr_bytes, card_mac, sizeof card_mac);
    printf("  %-20s %-5s %-5s %-10s %-10s %s\n", "frames to", "own", "other", "multicast", "multicast", "broadcast");
    for (size_t i = 0; i < RTE_DIM(rows); i++) {
        if (rows[i].ask(port) != 0)
            problem("the driver refused: %s", rows[i].what);
        printf("  %-20s %-5s ", rows[i].what, arrival(port, &own, true, rows[i].what));
        printf("%-5s %-10s ", arrival(port, &other, rows[i].other, rows[i].what),
               arrival(port, &group, rows[i].group, rows[i].what));
        printf("%-10s %s\n", arrival(port, &second, rows[i].second, rows[i].what),
               arrival(port, &everyone, true, rows[i].what));
    }
}
