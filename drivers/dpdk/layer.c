/* The parts of DPDK that the explorer's runs need: its memory, a pool of packets, and a port without a bus. The
   driver's own functions bring the port up, register by register, and their accesses go to the explorer. */
#include <bus_pci_driver.h>
#include <rte_cycles.h>
#include <rte_eal.h>
#include <rte_errno.h>
#include <rte_malloc.h>
#include <rte_random.h>
#include <stdio.h>
#include <stdlib.h>
#include <string.h>
#include <sys/mman.h>

#include "base/ixgbe_api.h"
#include "explore.h"
#include "ixgbe_ethdev.h"
#include "seam.h"
#include "window.h"

enum { MEBIBYTES = 32, MOST_KEPT = 512, SEED = 82599, BACKPLANE = 0x10F7, MOST_QUEUES = 1 };
/* not in the register table, so the shim answers it: otherwise the driver polls it 4,000 times */
enum { SECRXSTAT = 0x08D04, SECRX_READY = 1 };

struct rte_eth_dev *port;
struct rte_mempool *packets;
enum plant planted;
static struct rte_pci_driver *driver;
static struct rte_pci_device card;
static bool is_bringing_up;

/* ---- called by the driver instead of its accesses ---- */

void seam_bring_up(bool begins)
{
    is_bringing_up = begins;
}

/* Returns whether a register is a tail: a planted late store takes effect only after a write to a tail. */
static bool is_tail(uint32_t offset)
{
    return (offset & 0xFF3F) == (NIC_RDT(0) & 0xFF3F) || (offset & 0xFF3F) == (NIC_TDT(0) & 0xFF3F);
}

uint32_t seam_read(const volatile void *address)
{
    unsigned int function;
    uint32_t offset;
    window_find(address, &function, &offset);
    points_flush();
    if (is_bringing_up)
        nicx_settle();
    if (!function && offset == SECRXSTAT)
        return SECRX_READY;
    return function ? nicx_vf_read32((uint8_t)(function - 1), offset) : nicx_read32(offset);
}

void seam_write(uint32_t word, volatile void *address, const char *file, unsigned int line)
{
    (void)file, (void)line;
    unsigned int function;
    uint32_t offset;
    window_find(address, &function, &offset);
    bool is_late = planted == ORDER && !is_bringing_up && !function && is_tail(offset);
    if (planted == TURN && !is_bringing_up && !function && offset == NIC_PFMBMEM(0) + 4)
        word ^= 1;
    if (!is_late)
        points_flush();
    if (function)
        nicx_vf_write32((uint8_t)(function - 1), offset, word);
    else
        nicx_write32(offset, word);
    points_flush();
}

/* Gives other tasks the chance to run, because time isn't modelled. */
void seam_wait(unsigned int microseconds)
{
    (void)microseconds;
    points_flush();
    if (!is_bringing_up)
        nicx_pause();
}

void seam_register(struct rte_pci_driver *it)
{
    for (const struct rte_pci_id *id = it->id_table; id->vendor_id; id++)
        if (id->device_id == BACKPLANE)
            driver = it;
}

int seam_handle(const struct rte_intr_handle *handle, void (*handler)(void *), void *argument)
{
    (void)handle;
    (void)handler;
    (void)argument;
    return 0;
}

int seam_handle_no_more(const struct rte_intr_handle *handle, void (*handler)(void *), void *argument)
{
    (void)handle;
    (void)handler;
    (void)argument;
    return 1;
}

/* ---- state ---- */

static struct kept {
    void *at, *copy;
    size_t length;
} kept[MOST_KEPT];
static unsigned int kept_count;

void state_begin(void)
{
    for (unsigned int k = 0; k < kept_count; k++)
        free(kept[k].copy);
    kept_count = 0;
}

bool state_keep(void *at, size_t length)
{
    void *copy = kept_count < MOST_KEPT ? malloc(length) : NULL;
    if (!copy)
        return false;
    memcpy(copy, at, length);
    kept[kept_count++] = (struct kept){at, copy, length};
    return true;
}

void state_back(void)
{
    for (unsigned int k = 0; k < kept_count; k++)
        memcpy(kept[k].at, kept[k].copy, kept[k].length);
}

/* ---- DPDK ---- */

/* DPDK's memory is shared with forked processes; here each process gets its own copy. */
static int make_private(const struct rte_memseg_list *list, void *unused)
{
    (void)unused;
    char *copy = malloc(list->len);
    if (!copy)
        return -1;
    memcpy(copy, list->base_va, list->len);
    void *at = mmap(list->base_va, list->len, PROT_READ | PROT_WRITE, MAP_PRIVATE | MAP_ANONYMOUS | MAP_FIXED, -1, 0);
    if (at != MAP_FAILED)
        memcpy(at, copy, list->len);
    free(copy);
    return at == MAP_FAILED ? -1 : 0;
}

const char *layer_start(void)
{
    static bool is_up;
    char mebibytes[16];
    snprintf(mebibytes, sizeof mebibytes, "%d", MEBIBYTES);
    char *arguments[] = {"explore",  "--no-huge",   "--iova-mode=va", "-m",  mebibytes,
                         "--no-pci", "--no-shconf", "--no-telemetry", "-l0", "--log-level=*:critical"};
    if (is_up)
        return NULL;
    if (rte_eal_init(RTE_DIM(arguments), arguments) < 0)
        return rte_strerror(rte_errno);
    if (rte_memseg_list_walk(make_private, NULL) != 0 || !window_open(MOST_FUNCTIONS))
        return "out of memory";
    rte_delay_us_callback_register(seam_wait);
    is_up = true;
    return NULL;
}

static void place(struct rte_mempool *pool, void *unused, void *packet, unsigned int number)
{
    (void)pool;
    (void)unused;
    ((struct rte_mbuf *)packet)->buf_iova = BUS_BUFFERS + (uint64_t)number * (DATA_ROOM + RTE_PKTMBUF_HEADROOM);
}

const char *layer_pool(unsigned int count)
{
    if (!packets)
        packets = rte_pktmbuf_pool_create("packets", count, 0, 0, DATA_ROOM + RTE_PKTMBUF_HEADROOM, SOCKET_ID_ANY);
    if (!packets)
        return rte_strerror(rte_errno);
    rte_mempool_obj_iter(packets, place, NULL);
    return NULL;
}

/* The driver queries its own capabilities through this call, which reports only the basic ones. */
static int tell_nothing(struct rte_eth_dev *it, struct rte_eth_dev_info *information)
{
    (void)it;
    memset(information, 0, sizeof *information);
    return 0;
}

static const struct eth_dev_ops operations = {.dev_infos_get = tell_nothing};

/* Allocates the port's entry in DPDK's table, once. */
static bool allocate_port(void)
{
    if (port)
        return true;
    port = rte_eth_dev_allocate("explored");
    if (!port || !driver)
        return false;
    port->data->dev_private = rte_zmalloc("adapter", sizeof(struct ixgbe_adapter), RTE_CACHE_LINE_SIZE);
    port->data->rx_queues = calloc(MOST_QUEUES, sizeof(void *));
    port->data->tx_queues = calloc(MOST_QUEUES, sizeof(void *));
    port->dev_ops = &operations;
    port->device = &card.device;
    card.device.driver = &driver->driver;
    card.driver = driver;
    rte_eth_dev_probing_finish(port);
    return port->data->dev_private && port->data->rx_queues && port->data->tx_queues;
}

const char *layer_port(unsigned int virtual_functions)
{
    if (!allocate_port())
        return "DPDK has no room for another port";
    struct ixgbe_adapter *adapter = port->data->dev_private;
    card.max_vfs = (uint16_t)virtual_functions;
    card.id = (struct rte_pci_id){RTE_CLASS_ANY_ID, 0x8086, BACKPLANE, 0x8086, 0};
    rte_srand(SEED);
    memset(adapter, 0, sizeof *adapter);
    adapter->hw.hw_addr = window_of(0);
    adapter->hw.vendor_id = 0x8086;
    adapter->hw.device_id = BACKPLANE;
    adapter->rx_bulk_alloc_allowed = adapter->rx_vec_allowed = true;
    return ixgbe_init_shared_code(&adapter->hw) == 0 ? NULL : "ixgbe_init_shared_code fails";
}
