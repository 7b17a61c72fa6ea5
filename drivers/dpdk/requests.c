#include "requests.h"

#include <errno.h>
#include <inttypes.h>
#include <stdio.h>
#include <string.h>

#include "frames.h"
#include "mailbox.h"
#include "passes.h"
#include "ports.h"
#include "rte_pmd_ixgbe.h"
#include "run.h"
#include "verdict.h"

#define REQUESTS 16
#define F0 1u /* ports of virtual functions 0 and 1 */
#define F1 2u
#define VLAN 100
#define OTHER_VLAN 200
#define COLUMNS 9
#define FLOOD 140      /* number of frames: more than fit in a ring and this test's receive list */
#define AFTER_FLOOD 10 /* frames to the physical function after the flood */

static struct rte_ether_addr further = {{0x02, 0, 0, 0, 0, 0x77}}, another = {{0x02, 0, 0, 0, 0, 0x78}},
                             group = {{0x01, 0, 0x5e, 0x01, 0x02, 0x03}},
                             everyone = {{0xff, 0xff, 0xff, 0xff, 0xff, 0xff}};
static struct rte_ether_addr former; /* VF0's address at the start */
static unsigned int known_refusals;

/* ---- requests ---- */

static int nothing(uint16_t port)
{
    (void)port;
    return 0;
}

static int add(uint16_t port)
{
    return rte_eth_dev_mac_addr_add(port, &further, 0);
}

static int take_away(uint16_t port)
{
    return rte_eth_dev_mac_addr_remove(port, &further);
}

static int change(uint16_t port)
{
    return rte_eth_dev_default_mac_addr_set(port, &another);
}

static int change_back(uint16_t port)
{
    return rte_eth_dev_default_mac_addr_set(port, &former);
}

static int list(uint16_t port)
{
    return rte_eth_dev_set_mc_addr_list(port, &group, 1);
}

static int vlan(uint16_t port)
{
    return rte_eth_dev_vlan_filter(port, VLAN, 1);
}

static int vlan_off(uint16_t port)
{
    return rte_eth_dev_vlan_filter(port, VLAN, 0);
}

static int shorter(uint16_t port)
{
    return rte_eth_dev_set_mtu(port, 1400);
}

static int longer(uint16_t port)
{
    return rte_eth_dev_set_mtu(port, 1500);
}

static int host_gives(uint16_t port)
{
    return rte_pmd_ixgbe_set_vf_mac_addr(port, 0, &another);
}

static int host_gives_back(uint16_t port)
{
    return rte_pmd_ixgbe_set_vf_mac_addr(port, 0, &former);
}

static int host_broadcast(uint16_t port)
{
    return rte_pmd_ixgbe_set_vf_rxmode(port, 0, RTE_ETH_VMDQ_ACCEPT_BROADCAST, 1);
}

static int host_stops_receive(uint16_t port)
{
    return rte_pmd_ixgbe_set_vf_rx(port, 0, 0);
}

static int host_starts_receive(uint16_t port)
{
    return rte_pmd_ixgbe_set_vf_rx(port, 0, 1);
}

static int host_pings(uint16_t port)
{
    return rte_pmd_ixgbe_ping_vf(port, 0);
}

/* A request to a port's driver, the expected status, and the receiver of a frame to each address: the physical function
   (H), a virtual function (its number), or none (-). The addresses are the columns of tell_head. */
static const struct {
    const char *what;
    unsigned int port;
    int (*ask)(uint16_t port);
    int answer;
    char who[COLUMNS + 1];
} rows[] = {
    {"initially", F0, nothing, 0, "H01---H00"},
    {"VF0: a further address", F0, add, 0, "H010--H00"},
    {"VF0: address removed", F0, take_away, 0, "H01---H00"},
    {"VF0: another address", F0, change, 0, "H-1-0-H--"},
    {"VF0: its previous address", F0, change_back, 0, "H01---H00"},
    {"VF0: a multicast address", F0, list, 0, "H01---H00"},
    {"VF0: all multicast", F0, rte_eth_allmulticast_enable, 0, "H01---H00"},
    {"VF0: promiscuous", F0, rte_eth_promiscuous_enable, -ENOTSUP, "H01---H00"},
    {"VF0: VLAN 100", F0, vlan, 0, "H01---H00"},
    {"VF0: VLAN removed", F0, vlan_off, 0, "H01---H00"},
    {"VF0: MTU 1,400", F0, shorter, 0, "H01---H00"},
    {"VF0: MTU 1,500", F0, longer, 0, "H01---H00"},
    {"host: assigns VF0 another address", HOST, host_gives, 0, "H-1-0-H--"},
    {"host: the previous address", HOST, host_gives_back, 0, "H01---H00"},
    {"host: VF0 accepts broadcasts", HOST, host_broadcast, 0, "H01---H00"},
    {"host: all multicast", HOST, rte_eth_allmulticast_enable, 0, "H01--HH00"},
    {"host: all multicast off", HOST, rte_eth_allmulticast_disable, 0, "H01---H00"},
    {"host: promiscuous", HOST, rte_eth_promiscuous_enable, 0, "H01HHHH00"},
    {"host: promiscuous off", HOST, rte_eth_promiscuous_disable, 0, "H01---H00"},
    {"host: VF0 doesn't receive", HOST, host_stops_receive, 0, "H-1---H--"},
    {"host: VF0 receives", HOST, host_starts_receive, 0, "H01---H00"},
    {"host: pings VF0", HOST, host_pings, 0, "H01---H00"},
};

static const char *const heads[COLUMNS] = {"host", "VF0", "VF1", ":77", ":78", "group", "all", "V100", "V200"};

static void tell_head(void)
{
    printf("  %-32s", "receiver of a frame to");
    for (unsigned int i = 0; i < COLUMNS; i++)
        printf(i + 1 < COLUMNS ? " %-5s" : " %s", heads[i]);
    printf("\n");
}

static char letter(int who)
{
    return who < 0 ? '-' : who == HOST ? 'H' : (char)('0' + who - 1);
}

static void tell_who(char who, bool is_last)
{
    char name[] = "VF0";
    name[2] = who;
    printf(is_last ? " %s" : " %-5s", who == 'H' ? "host" : who == '-' ? "-" : name);
}

static void try_row(size_t row)
{
    const struct rte_ether_addr *to[COLUMNS] = {&ports[HOST].mac, &former,   &ports[F1].mac, &further, &another,
                                                &group,           &everyone, &former,        &former};
    char who[COLUMNS + 1] = {0};
    int answer = rows[row].ask(ports[rows[row].port].number);
    for (unsigned int i = 0; i < COLUMNS; i++)
        who[i] = letter(who_gets(to[i]->addr_bytes, i == COLUMNS - 2 ? VLAN : i == COLUMNS - 1 ? OTHER_VLAN : 0));
    printf("  %-32s", rows[row].what);
    for (unsigned int i = 0; i < COLUMNS; i++)
        tell_who(who[i], i + 1 == COLUMNS);
    printf("%s\n", answer ? " refused by the driver" : "");
    known_refusals += rows[row].answer != 0;
    if (answer != rows[row].answer)
        problem("%s: the driver returned %d", rows[row].what, answer);
    if (strcmp(who, rows[row].who) != 0)
        problem("%s: the frames arrived at %s, but %s was expected", rows[row].what, who, rows[row].who);
}

void requests(void)
{
    bus_enter(run_bus, IN_REQUESTS);
    printf("requests by virtual functions, and actions by the host\n");
    former = ports[F0].mac;
    tell_head();
    for (size_t row = 0; row < RTE_DIM(rows); row++)
        try_row(row);
    printf("  (nobody has addresses :77 and :78, V100 and V200 are VF0's address with a VLAN tag, group is a multicast "
           "address)\n");
}

/* ---- limits ---- */

/* Floods VF0, which doesn't poll, then sends frames to the physical function. Checks how many of these frames arrive
   immediately and after VF0 polls. */
static void block(const char *what, unsigned int at_once)
{
    uint64_t drops = bus_counts(run_bus)->drops;
    port_drain(HOST);
    port_drain(F0);
    flood(F0, FRAME_OTHER, FRAME_KINDS, FLOOD); /* not IP: no hash, so all go to one queue */
    flood(HOST, FRAME_OTHER, FRAME_KINDS, AFTER_FLOOD);
    unsigned int came = port_drain(HOST), waited = port_drain(F0);
    bus_receive(run_bus);
    unsigned int later = port_drain(HOST);
    waited += port_drain(F0);
    printf("  %-36s the host gets %u of %u immediately, %u after VF0 polls; VF0 gets %u of %u\n", what, came,
           AFTER_FLOOD, later, waited, FLOOD);
    same("frames to the host while VF0's ring is full", came, at_once);
    same("frames to the host, before and after VF0 polls", came + later, AFTER_FLOOD);
    same("frames to a virtual function that doesn't poll", waited + (bus_counts(run_bus)->drops - drops), FLOOD);
}

static void blocks(void)
{
    uint16_t host = ports[HOST].number;
    printf("  %u frames to VF0, which doesn't poll, then %u to the host:\n", FLOOD, AFTER_FLOOD);
    block("initially", 0);
    failed("rte_pmd_ixgbe_set_all_queues_drop_en", rte_pmd_ixgbe_set_all_queues_drop_en(host, 1));
    block("with QDE, which the bench lacks", 0);
    failed("rte_pmd_ixgbe_set_vf_split_drop_en", rte_pmd_ixgbe_set_vf_split_drop_en(host, 0, 1));
    block("with DROP_EN in VF0's SRRCTL", AFTER_FLOOD);
    failed("rte_pmd_ixgbe_set_vf_split_drop_en", rte_pmd_ixgbe_set_vf_split_drop_en(host, 0, 0));
}

static void between(unsigned int from, unsigned int to)
{
    unsigned int sent = send_one(from, ports[to].mac.addr_bytes);
    bus_receive(run_bus);
    unsigned int got = port_drain(to);
    printf("  %s sends to %s's address: %u on the wire, %s receives %u\n", port_name(from), port_name(to), sent,
           port_name(to), got);
    same("frames between pools, sent on the wire", sent, 1);
    same("frames between pools, delivered inside the device", got, 0);
}

static void stop_sending(void)
{
    uint16_t host = ports[HOST].number;
    failed("rte_pmd_ixgbe_set_vf_tx", rte_pmd_ixgbe_set_vf_tx(host, 0, 0));
    unsigned int off = send_one(F0, peer_mac);
    failed("rte_pmd_ixgbe_set_vf_tx", rte_pmd_ixgbe_set_vf_tx(host, 0, 1));
    unsigned int on = send_one(F0, peer_mac);
    printf("  the host disables and enables sending for VF0: %u frames are sent, then %u of 2\n", off, on);
    same("frames from a virtual function that may not send", off, 0);
    same("frames from a virtual function that may send again", on, 2);
}

uint64_t limits(void)
{
    uint64_t drops = bus_counts(run_bus)->drops;
    bus_enter(run_bus, IN_HOST);
    printf("limits\n");
    blocks();
    between(F0, HOST);
    between(HOST, F0);
    stop_sending();
    return bus_counts(run_bus)->drops - drops;
}

/* ---- the mailbox ---- */

void requests_tell(void)
{
    uint64_t refused = 0;
    printf("requests by virtual functions through their mailboxes, and the host's answers\n");
    mailbox_tell(run_bus);
    for (unsigned int request = 1; request <= REQUESTS; request++) {
        struct mailbox_counts it = mailbox_counts(run_bus, request);
        refused += it.refused;
        if (it.acknowledged + it.refused != it.asked)
            problem("request %u: %" PRIu64 " of %" PRIu64 " were answered", request, it.acknowledged + it.refused,
                    it.asked);
    }
    same("requests that the host refuses", refused, known_refusals);
}
