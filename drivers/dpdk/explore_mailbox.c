/* DPDK's mailbox: the PF's driver (ixgbe_pf.c on top of base/ixgbe_mbx.c) with its VFs' drivers (base/ixgbe_vf.c on top
   of the same). Each virtual function is a task; the PF's driver is the handler of the mailbox interrupt. */
#include <rte_ether.h>
#include <string.h>

#include "base/ixgbe_api.h"
#include "base/ixgbe_vf.h"
#include "explore.h"
#include "forms.h"
#include "rte_pmd_ixgbe.h"
#include "window.h"

enum { VECTOR = 5, MAILBOX = 1 << 19, DEVICE_READY = 0x4000, FUNCTION = 0x10ED };

static struct ixgbe_hw functions[MOST_FUNCTIONS];
static struct rte_ether_addr asked[MOST_FUNCTIONS];
static unsigned int done;
static bool has_ping;

static struct ixgbe_hw *host(void)
{
    return &((struct ixgbe_adapter *)port->data->dev_private)->hw;
}

static struct ixgbe_vf_info *host_knows(unsigned int vf)
{
    return &((struct ixgbe_adapter *)port->data->dev_private)->vfdata[vf];
}

/* ---- the tasks ---- */

/* Sends the requests that a VF driver sends at start: a reset, the API version, its queues, an address. */
static void function(void *argument)
{
    unsigned int vf = (unsigned int)(uintptr_t)argument, classes = 0, first = 0;
    struct ixgbe_hw *hw = &functions[vf];
    nicx_check(hw->mac.ops.reset_hw(hw) == 0, "a virtual function's reset isn't answered");
    nicx_check(!memcmp(hw->mac.perm_addr, host_knows(vf)->vf_mac_addresses, 6),
               "a virtual function got an address that differs from the host's entry for it");
    nicx_check(ixgbevf_negotiate_api_version(hw, ixgbe_mbox_api_13) == 0,
               "a virtual function and its host don't agree on a version");
    nicx_check(ixgbevf_get_queues(hw, &classes, &first) == 0, "a virtual function doesn't get its number of queues");
    nicx_check(hw->mac.ops.set_rar(hw, 0, asked[vf].addr_bytes, 0, 1) == 0,
               "a virtual function's address isn't accepted");
    points_flush();
    done++;
}

/* Does what the driver's own handler does: masks the causes, serves the mailbox, and unmasks the causes again. */
static void serve(void *unused)
{
    (void)unused;
    nicx_write32(NIC_EIMC, MAILBOX);
    if (nicx_read32(NIC_EICR) & MAILBOX)
        ixgbe_pf_mbx_process(port);
    nicx_write32(NIC_EIMS, MAILBOX);
}

/* Acts as the application that uses the PF's driver, and sends virtual function 0 a message at any time. */
static void ping(void *unused)
{
    (void)unused;
    rte_pmd_ixgbe_ping_vf(port->data->port_id, 0);
}

/* ---- bring-up ---- */

static const char *start_host(void)
{
    const char *fault = layer_port(MOST_FUNCTIONS);
    if (fault)
        return fault;
    /* otherwise the PF's driver reports no queues to its virtual functions */
    port->data->dev_conf.txmode.mq_mode = RTE_ETH_MQ_TX_VMDQ_ONLY;
    if (ixgbe_pf_host_init(port) != 0 || ixgbe_pf_host_configure(port) != 0)
        return "the host can't be started";
    nicx_write32(NIC_CTRL_EXT, DEVICE_READY);
    nicx_write32(NIC_IVAR_MISC, (0x80 | VECTOR) << 8);
    nicx_write32(NIC_EIMS, MAILBOX);
    return NULL;
}

static const char *start_functions(void)
{
    memset(functions, 0, sizeof functions);
    for (unsigned int vf = 0; vf < MOST_FUNCTIONS; vf++) {
        struct ixgbe_hw *hw = &functions[vf];
        hw->hw_addr = window_of(vf + 1);
        hw->vendor_id = 0x8086;
        hw->device_id = FUNCTION;
        if (ixgbe_init_shared_code(hw) != 0)
            return "ixgbe_init_shared_code fails for a virtual function";
        mailbox_calls(hw)->init_params(hw);
        asked[vf] = (struct rte_ether_addr){{2, 0, 0, 0, 0x77, (uint8_t)vf}};
    }
    return NULL;
}

static const char *bring_up(void)
{
    const char *fault = layer_start();
    if (fault)
        return fault;
    points_begin();
    seam_bring_up(true);
    fault = start_host();
    if (!fault)
        fault = start_functions();
    seam_bring_up(false);
    if (fault)
        return fault;
    state_begin();
    bool is_kept = state_keep(port->data->dev_private, sizeof(struct ixgbe_adapter)) &&
                   state_keep(host_knows(0), MOST_FUNCTIONS * sizeof *host_knows(0)) &&
                   state_keep(functions, sizeof functions);
    return is_kept ? NULL : "out of memory for the driver's state";
}

static void begin(void)
{
    static const char *const names[] = {"function0", "function1"};
    state_back();
    done = 0;
    for (uintptr_t vf = 0; vf < MOST_FUNCTIONS; vf++)
        nicx_task(names[vf], function, (void *)vf);
    if (has_ping)
        nicx_task("ping", ping, NULL);
    nicx_handler("serve", 0, VECTOR, serve, NULL, NICX_BESIDE);
}

static const char *end(void)
{
    if (done != MOST_FUNCTIONS)
        return "a virtual function hasn't finished";
    for (unsigned int vf = 0; vf < MOST_FUNCTIONS; vf++) {
        if (host_knows(vf)->api_version != ixgbe_mbox_api_13)
            return "the host's version differs from the agreed version";
        if (memcmp(host_knows(vf)->vf_mac_addresses, asked[vf].addr_bytes, 6) != 0)
            return "the host's address differs from the address that a virtual function requested";
    }
    return host()->mbx.stats.msgs_rx < 4 * MOST_FUNCTIONS ? "the host read fewer messages than were sent" : NULL;
}

const nicx_scenario *mailbox_scenario(const char *name)
{
    static nicx_scenario scenario = {
        .vfs = MOST_FUNCTIONS,
        .fifo = 16,
        .blocks = 16,
        .queues = 1,
        .points = 100000,
        .stack = 262144,
        .bring_up = bring_up,
        .begin = begin,
        .end = end,
    };
    has_ping = !strcmp(name, "mailbox-ping");
    if (!has_ping && strcmp(name, "mailbox") != 0)
        return NULL;
    scenario.name = has_ping ? "mailbox-ping" : "mailbox";
    return &scenario;
}
