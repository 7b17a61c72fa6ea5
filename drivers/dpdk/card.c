#include "card.h"

#include <bus_pci_driver.h>
#include <errno.h>
#include <rte_ethdev.h>
#include <rte_interrupts.h>
#include <stdio.h>
#include <string.h>
#include <sys/eventfd.h>
#include <unistd.h>

#include "bench.h"
#include "explain.h"
#include "run.h"
#include "seam.h"
#include "turns.h"
#include "window.h"

#define INTEL 0x8086
#define DRIVERS 8

struct card {
    struct rte_pci_device device;
    void (*handler)(void *);
    void *argument;
    uint64_t interrupts;
};

static struct rte_pci_driver *drivers[DRIVERS];
static unsigned int registered;
static struct card cards[BUS_FUNCTIONS];

/* ---- called by the driver ---- */

uint32_t seam_read(const volatile void *address)
{
    unsigned int function;
    uint32_t offset;
    window_find(address, &function, &offset);
    turns_take();
    uint32_t word = bench_read(function, offset);
    turns_give_back();
    return word;
}

void seam_write(uint32_t word, volatile void *address, const char *file, unsigned int line)
{
    unsigned int function;
    uint32_t offset;
    window_find(address, &function, &offset);
    turns_take();
    writing_file = file;
    writing_line = line;
    bench_write(function, offset, word);
    writing_file = NULL;
    turns_give_back();
}

/* DPDK also waits before the bus is open and after it is closed. */
void seam_wait(unsigned int microseconds)
{
    if (run_bus)
        bus_wait(run_bus, microseconds);
}

void seam_register(struct rte_pci_driver *driver)
{
    if (registered < DRIVERS)
        drivers[registered++] = driver;
}

static struct card *card_of(const struct rte_intr_handle *handle)
{
    for (unsigned int function = 0; function < BUS_FUNCTIONS; function++)
        if (cards[function].device.intr_handle == handle)
            return &cards[function];
    return NULL;
}

int seam_handle(const struct rte_intr_handle *handle, void (*handler)(void *), void *argument)
{
    struct card *card = card_of(handle);
    if (!card)
        return -ENOENT;
    card->handler = handler;
    card->argument = argument;
    return 0;
}

int seam_handle_no_more(const struct rte_intr_handle *handle, void (*handler)(void *), void *argument)
{
    struct card *card = card_of(handle);
    (void)argument;
    if (!card || card->handler != handler)
        return -ENOENT;
    card->handler = NULL;
    return 1;
}

/* ---- the PCI bus ---- */

static struct rte_pci_driver *driver_of(uint16_t device_id)
{
    for (unsigned int i = 0; i < registered; i++)
        for (const struct rte_pci_id *id = drivers[i]->id_table; id->vendor_id; id++)
            if (id->vendor_id == INTEL && id->device_id == device_id)
                return drivers[i];
    return NULL;
}

/* Creates an interrupt handle of a type that needs no kernel. Nothing writes to its descriptor: the run calls the
   handlers. */
static struct rte_intr_handle *silent_interrupt(void)
{
    struct rte_intr_handle *handle = rte_intr_instance_alloc(RTE_INTR_INSTANCE_F_PRIVATE);
    if (!handle)
        return NULL;
    rte_intr_type_set(handle, RTE_INTR_HANDLE_VDEV);
    rte_intr_fd_set(handle, eventfd(0, EFD_NONBLOCK));
    return handle;
}

/* Creates a new eventfd for each vector, because the driver closes them when it stops. */
void card_give_vectors(unsigned int function, unsigned int vectors)
{
    struct rte_intr_handle *handle = cards[function].device.intr_handle;
    if (!vectors || rte_intr_nb_efd_get(handle) > 0)
        return;
    for (unsigned int vector = 0; vector < vectors; vector++)
        rte_intr_efds_index_set(handle, (int)vector, eventfd(0, EFD_NONBLOCK));
    rte_intr_nb_efd_set(handle, (int)vectors);
    rte_intr_max_intr_set(handle, (int)vectors + 1);
}

static void put_away(struct rte_pci_device *device)
{
    for (int vector = 0; vector < rte_intr_nb_efd_get(device->intr_handle); vector++)
        close(rte_intr_efds_index_get(device->intr_handle, vector));
    close(rte_intr_fd_get(device->intr_handle));
    rte_intr_instance_free(device->intr_handle);
    device->intr_handle = NULL;
}

int card_probe(unsigned int function, uint16_t device_id, uint16_t max_vfs, unsigned int vectors)
{
    struct rte_pci_driver *driver = driver_of(device_id);
    struct rte_pci_device *device = &cards[function].device;
    if (!driver)
        return -ENODEV;
    memset(device, 0, sizeof *device);
    if (function == BUS_PHYSICAL)
        snprintf(device->name, sizeof device->name, "0000:00:00.0");
    else
        snprintf(device->name, sizeof device->name, "0000:01:%02x.%u", (function - 1) / 8 & 7, (function - 1) % 8);
    device->device.name = device->name;
    device->device.driver = &driver->driver;
    device->device.numa_node = 0;
    device->driver = driver;
    device->id = (struct rte_pci_id){RTE_CLASS_ANY_ID, INTEL, device_id, INTEL, 0};
    device->mem_resource[0] =
        (struct rte_mem_resource){0, function == BUS_PHYSICAL ? BUS_SPACE : BUS_FUNCTION_SPACE, window_of(function)};
    device->max_vfs = max_vfs;
    device->intr_handle = silent_interrupt();
    if (!device->intr_handle)
        return -ENOMEM;
    card_give_vectors(function, vectors);
    int status = driver->probe(driver, device);
    if (status != 0)
        put_away(device);
    return status;
}

int card_remove(unsigned int function)
{
    struct rte_pci_device *device = &cards[function].device;
    int status = device->driver->remove(device);
    put_away(device);
    return status;
}

const char *card_driver(unsigned int function)
{
    const struct rte_pci_driver *driver = cards[function].device.driver;
    return driver ? driver->driver.name : NULL;
}

uint16_t card_port(unsigned int function)
{
    uint16_t port;
    return rte_eth_dev_get_port_by_name(cards[function].device.name, &port) == 0 ? port : RTE_MAX_ETHPORTS;
}

bool card_interrupt(unsigned int function)
{
    struct card *card = &cards[function];
    if (!card->handler)
        return false;
    card->interrupts++;
    card->handler(card->argument);
    return true;
}

uint64_t card_interrupts(unsigned int function)
{
    return cards[function].interrupts;
}
