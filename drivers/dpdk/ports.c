#include "ports.h"

#include <errno.h>
#include <inttypes.h>
#include <stdio.h>
#include <string.h>

#include "card.h"
#include "hashes.h"
#include "mailbox.h"
#include "run.h"
#include "verdict.h"

#define HOST_DEVICE 0x10F7     /* 82599EB, KX4 */
#define FUNCTION_DEVICE 0x10ED /* device ID of its virtual functions */
#define NAME_ROOM 8
#define WHAT 40
#define MAILBOX_WORDS 16
/* in the first word of a message */
#define REQUEST_NUMBER 0xFFFFu
#define ANSWERED 0xC0000000u

const char *const phase_names[] = {
    "probe", "start",    "traffic",  "counters", "requests", "host", "stop",
    "close", "vf-probe", "vf-start", "vf-stop",  "vf-close", NULL,
};
struct setting setting;
struct port ports[BUS_FUNCTIONS];
struct rss rss;

const char *port_name(unsigned int which)
{
    static char names[BUS_FUNCTIONS][NAME_ROOM];
    if (which == HOST)
        return "host";
    snprintf(names[which], NAME_ROOM, "VF%u", (which - 1) % BUS_FUNCTIONS);
    return names[which];
}

unsigned int port_queues(unsigned int which)
{
    return which == HOST ? setting.queues : setting.vf_queues;
}

/* The physical function's pool, the default pool in VT_CTL, comes after the virtual functions' pools. */
uint16_t device_queue(unsigned int which, uint16_t queue)
{
    unsigned int pool_number = which == HOST ? setting.max_vfs : which - 1;
    return (uint16_t)(pool_number * bus_pool_queues(run_bus) + queue);
}

/* ---- probe ---- */

static unsigned int vectors_of(unsigned int which)
{
    return !setting.has_vectors ? 0 : which == HOST ? setting.queues : 1;
}

static int probe(unsigned int which)
{
    bus_enter(run_bus, which == HOST ? IN_PROBE : IN_VF_PROBE);
    if (which == HOST)
        return card_probe(which, HOST_DEVICE, (uint16_t)setting.max_vfs, vectors_of(which));
    return card_probe(which, FUNCTION_DEVICE, 0, vectors_of(which));
}

/* Records a new port's number and address, and prints them. */
static bool greet(unsigned int which)
{
    struct port *port = &ports[which];
    struct rte_eth_dev_info info;
    *port = (struct port){.number = card_port(which)};
    if (port->number == RTE_MAX_ETHPORTS ||
        failed("rte_eth_macaddr_get", rte_eth_macaddr_get(port->number, &port->mac)) ||
        failed("rte_eth_dev_info_get", rte_eth_dev_info_get(port->number, &info)))
        return false;
    port->is_there = true;
    printf("  %s, address " RTE_ETHER_ADDR_PRT_FMT ", at most %u queues\n", card_driver(which),
           RTE_ETHER_ADDR_BYTES(&port->mac), info.max_rx_queues);
    return true;
}

int port_try_probe(unsigned int which)
{
    int status = probe(which);
    if (status == 0)
        greet(which);
    return status;
}

/* If the host owes a virtual function the answer to a request, prints that as the reason for its failure. The mailbox
   still contains the request. */
static void tell_unanswered(unsigned int which)
{
    uint32_t request = bus_peek(run_bus, NIC_PFMBMEM(MAILBOX_WORDS * (which - 1)));
    struct mailbox_counts counts = mailbox_counts(run_bus, request & REQUEST_NUMBER);
    unsigned int word = (which - 1) / 16, bit = (which - 1) % 16;
    if (bus_peek(run_bus, NIC_PFMBICR(word)) >> bit & 1)
        reason("the host didn't read %s's request 0x%08" PRIx32 ": bit %u of PFMBICR[%u] is 1", port_name(which),
               request, bit, word);
    else if (!(request & ANSWERED) && counts.acknowledged + counts.refused < counts.asked)
        reason("the host read %s's request 0x%08" PRIx32 " but didn't answer it", port_name(which), request);
}

bool port_probe(unsigned int which)
{
    char what[WHAT];
    if (ports[which].is_there)
        return true;
    printf("%s is probed\n", port_name(which));
    snprintf(what, sizeof what, "the driver's probe of %s", port_name(which));
    if (!failed(what, probe(which)))
        return greet(which);
    if (which != HOST)
        tell_unanswered(which);
    return false;
}

/* Probes a virtual function and checks the result. Before the physical function is started, the mailbox works only if
   the shim always answers virtual functions, as the card does, and the interrupt line calls the PF's handler. Messages
   can't call that handler yet, because no vector is assigned. */
void port_probe_early(unsigned int which)
{
    uint64_t before = bus_counts(run_bus)->absent_reads;
    int expected = bus_answers(run_bus) & BUS_ABSENT && !setting.has_vectors ? 0 : -EAGAIN;
    printf("%s is probed before the host is started\n", port_name(which));
    int status = port_try_probe(which);
    printf("  the driver %s: %d, after %" PRIu64 " reads by a virtual function that has no pool yet\n",
           status ? "gives up" : "succeeds", status, bus_counts(run_bus)->absent_reads - before);
    if (status != expected || bus_counts(run_bus)->absent_reads == before)
        problem("an early probe returned %d instead of the expected %d", status, expected);
}

/* ---- start ---- */

static bool configure(unsigned int which)
{
    const char *what;
    struct rte_eth_conf configuration = {0};
    if (which == HOST && setting.has_rss)
        ask_for_rss(&configuration);
    if (which != HOST)
        configuration.rxmode.offloads |= RTE_ETH_RX_OFFLOAD_VLAN_FILTER;
    configuration.intr_conf.rxq = setting.has_vectors;
    int status = port_configure(ports[which].number, &configuration, port_queues(which), setting.slots, &what);
    return !failed(what, status);
}

static void tell_mode(void)
{
    printf("  GCR_EXT %08" PRIX32 ", MRQC %08" PRIX32 ", VT_CTL %08" PRIX32 ", IVAR_MISC %08" PRIX32 ": %u pools\n",
           bus_peek(run_bus, NIC_GCR_EXT), bus_peek(run_bus, NIC_MRQC), bus_peek(run_bus, NIC_VT_CTL),
           bus_peek(run_bus, NIC_IVAR_MISC), bus_pool_queues(run_bus) ? BUS_QUEUES / bus_pool_queues(run_bus) : 0);
}

bool port_start(unsigned int which)
{
    struct port *port = &ports[which];
    struct rte_eth_link link;
    bus_enter(run_bus, which == HOST ? IN_START : IN_VF_START);
    printf("%s is started\n", port_name(which));
    if (!port->is_configured && !configure(which))
        return false;
    port->is_configured = true;
    card_give_vectors(which, vectors_of(which));
    if (failed("rte_eth_dev_start", rte_eth_dev_start(port->number)))
        return false;
    port->is_started = true;
    if (which == HOST && setting.has_rss &&
        failed("the redirection table", choose_queues(port->number, setting.queues, &rss)))
        return false;
    if (failed("rte_eth_link_get_nowait", rte_eth_link_get_nowait(port->number, &link)))
        return false;
    if (!link.link_status)
        problem("%s: the link is down", port_name(which));
    if (which == HOST)
        tell_mode();
    return true;
}

/* ---- stop ---- */

bool port_stop(unsigned int which)
{
    bus_enter(run_bus, which == HOST ? IN_STOP : IN_VF_STOP);
    printf("%s is stopped\n", port_name(which));
    ports[which].is_started = false;
    return !failed("rte_eth_dev_stop", rte_eth_dev_stop(ports[which].number));
}

bool port_remove(unsigned int which)
{
    bus_enter(run_bus, which == HOST ? IN_CLOSE : IN_VF_CLOSE);
    printf("%s is removed\n", port_name(which));
    ports[which] = (struct port){0};
    return !failed("the driver's remove", card_remove(which));
}

unsigned int port_take(unsigned int which, look_at *look, void *argument)
{
    unsigned int all = 0;
    for (uint16_t queue = 0; ports[which].is_started && queue < port_queues(which); queue++)
        all += take_packets(ports[which].number, queue, look, argument);
    return all;
}

unsigned int port_drain(unsigned int which)
{
    return port_take(which, NULL, NULL);
}
