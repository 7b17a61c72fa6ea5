#include "pci.h"

#include <errno.h>
#include <inttypes.h>
#include <poll.h>
#include <stdio.h>
#include <string.h>

#include "run.h"
#include "verdict.h"
#include "vhost.h"

#define INTEL 0x8086u
#define VIRTUAL_DEVICE 0x10EDu
#define NOBODY 0xFFFFu  /* a virtual function's vendor and device ID */
#define FUNCTION_STEP 8 /* distance between two functions: one slot of bus 0 */
#define CONFIG_BYTES 4096
#define VECTORS 64 /* the physical function's, as on the card */
#define VIRTUAL_VECTORS 3
#define ENTRY_BYTES 16 /* size of an MSI-X table entry */
#define TABLE_BYTES 0x4000u
#define REGISTER_BAR 0
#define TABLE_BAR 3
#define SETTLE_WRITES                                                                                                  \
    64 /* posted writes after which the guest is called; its ring has 256 entries                                      \
        */

/* addresses in configuration space */
#define MSIX 0x70
#define MSIX_CONTROL (MSIX + 2)
#define MSIX_ENABLED 0x8000u
#define MSIX_MASKED 0x4000u
#define EXPRESS 0xA0
#define SERIAL 0x100
#define SRIOV 0x160

/* rings: the guest's requests; its interrupts */
enum { ASKED, INTERRUPTS };

enum operation { CONFIG_READ = 1, CONFIG_WRITE, MEMORY_READ, MEMORY_WRITE, MEMORY_SET, LINE, MESSAGE };

/* The header of a message on the guest's bus (virtio_pcidev), before its data. */
struct operation_header {
    uint8_t operation, bar;
    uint16_t reserved;
    uint32_t size;
    uint64_t address;
};

struct function {
    struct vhost vhost;
    unsigned int number;                              /* 0: physical function */
    uint8_t config[CONFIG_BYTES], mask[CONFIG_BYTES]; /* mask: writable bits */
    uint8_t table[ENTRY_BYTES * VECTORS];
    uint64_t due; /* vectors with unsent messages */
    unsigned int posted;
    uint64_t config_reads, config_writes, sent, by_vector[VECTORS];
};

static struct function functions[1 + FUNCTIONS_MOST];
static unsigned int function_count;
static pci_orders *orders;
static struct order_words order_words;

/* ---- configuration space ---- */

static uint32_t get(const uint8_t *at, unsigned int bytes)
{
    uint32_t value = 0;
    memcpy(&value, at, bytes);
    return value;
}

static void field(struct function *it, unsigned int at, unsigned int bytes, uint32_t value, uint32_t mask)
{
    memcpy(it->config + at, &value, bytes);
    memcpy(it->mask + at, &mask, bytes);
}

static void make_head(struct function *it, uint16_t device)
{
    bool is_physical = it->number == BUS_PHYSICAL;
    field(it, 0x00, 2, is_physical ? INTEL : NOBODY, 0);
    field(it, 0x02, 2, is_physical ? device : NOBODY, 0);
    field(it, 0x04, 2, 0, is_physical ? 0x0547 : 0x0004); /* command */
    field(it, 0x06, 2, 0x0010, 0);                        /* status: has capabilities */
    field(it, 0x08, 4, 0x02000001, 0);                    /* Ethernet controller */
    field(it, 0x2C, 4, 0x000C8086, 0);                    /* subsystem */
    field(it, 0x34, 1, 0x40, 0);                          /* first capability */
    if (!is_physical)
        return;
    field(it, 0x0C, 1, 0, 0xFF);                                /* cache line */
    field(it, 0x10 + 4 * REGISTER_BAR, 4, 0, ~(BUS_SPACE - 1)); /* registers */
    field(it, 0x10 + 4 * TABLE_BAR, 4, 0, ~(TABLE_BYTES - 1));  /* MSI-X */
    field(it, 0x3C, 2, 0x0100, 0x00FF);                         /* interrupt line, pin */
    field(it, ORDER_COUNT, 4, 0, UINT32_MAX);
    field(it, ORDER_FIRST, 4, 0, UINT32_MAX);
    field(it, ORDER_MOST, 4, 0, UINT32_MAX);
    field(it, ORDER_MAC, 4, 0, UINT32_MAX);
    field(it, ORDER_MAC + 4, 4, 0, UINT32_MAX);
    field(it, ORDER_WHAT, 4, 0, UINT32_MAX);
}

static void make_capabilities(struct function *it)
{
    uint32_t vectors = it->number == BUS_PHYSICAL ? VECTORS : VIRTUAL_VECTORS;
    field(it, 0x40, 4, 0x00037001, 0); /* power management, then MSI-X */
    field(it, 0x44, 4, 0x00000008, 0x0003);
    field(it, MSIX, 4, 0x0000A011 | (vectors - 1) << 16, 0xC0000000); /* then PCI Express */
    field(it, MSIX + 4, 4, TABLE_BAR, 0);
    field(it, MSIX + 8, 4, 0x2000 | TABLE_BAR, 0); /* pending bits, always 0 */
    field(it, EXPRESS, 4, 0x00020010, 0);          /* endpoint; last capability */
    field(it, EXPRESS + 0x04, 4, 0x00008002, 0);
    field(it, EXPRESS + 0x08, 2, 0x2810, 0x7FFF);
    field(it, EXPRESS + 0x0C, 4, 0x00000082, 0);
    field(it, EXPRESS + 0x10, 2, 0, 0xFFFF);
    field(it, EXPRESS + 0x12, 2, 0x0082, 0); /* 5 GT/s, eight lanes */
    field(it, EXPRESS + 0x28, 2, 0, 0xFFFF);
}

static void make_sriov(struct function *it, unsigned int count)
{
    field(it, SERIAL, 4, 0x00010003 | SRIOV << 20, 0); /* serial number, then SR-IOV */
    field(it, SRIOV, 4, 0x00010010, 0);
    field(it, SRIOV + 0x08, 2, 0, 0x0019);        /* control */
    field(it, SRIOV + 0x0C, 2, count, 0);         /* initial functions */
    field(it, SRIOV + 0x0E, 2, count, 0);         /* total functions */
    field(it, SRIOV + 0x10, 2, 0, 0xFFFF);        /* enabled functions */
    field(it, SRIOV + 0x14, 2, FUNCTION_STEP, 0); /* offset of the first */
    field(it, SRIOV + 0x16, 2, FUNCTION_STEP, 0); /* stride */
    field(it, SRIOV + 0x1A, 2, VIRTUAL_DEVICE, 0);
    field(it, SRIOV + 0x1C, 4, 0x00000553, 0); /* page sizes; in use: 4 KB */
    field(it, SRIOV + 0x20, 4, 1, UINT32_MAX);
    field(it, SRIOV + 0x24 + 4 * REGISTER_BAR, 4, 0, ~(BUS_FUNCTION_SPACE - 1));
    field(it, SRIOV + 0x24 + 4 * TABLE_BAR, 4, 0, ~(TABLE_BYTES - 1));
}

/* ---- messages ---- */

/* Writes one message into one of the guest's buffers. Returns false if the guest has none left. */
static bool send_one(struct function *it, unsigned int vector)
{
    struct vhost_chain chain;
    const uint8_t *entry = it->table + ENTRY_BYTES * vector;
    struct operation_header header = {.operation = MESSAGE, .size = 4};
    memcpy(&header.address, entry, sizeof header.address);
    if (!vhost_take(&it->vhost, INTERRUPTS, &chain))
        return false;
    if (chain.in_length < sizeof header + 4) {
        problem("the guest's message buffer is too short");
        return false;
    }
    memcpy(chain.in, &header, sizeof header);
    memcpy(chain.in + sizeof header, entry + 8, 4);
    vhost_give(&it->vhost, INTERRUPTS, &chain, sizeof header + 4);
    return true;
}

/* Sends due, unmasked messages as long as the guest has buffers for them. */
static void send_due(struct function *it)
{
    bool any = false;
    if (it->due == 0 || (get(it->config + MSIX_CONTROL, 2) & (MSIX_ENABLED | MSIX_MASKED)) != MSIX_ENABLED)
        return;
    for (unsigned int vector = 0; vector < VECTORS; vector++) {
        if (!(it->due >> vector & 1) || it->table[ENTRY_BYTES * vector + 12] & 1)
            continue;
        if (!send_one(it, vector))
            break;
        it->due &= ~(UINT64_C(1) << vector);
        it->sent++;
        it->by_vector[vector]++;
        any = true;
    }
    if (any)
        vhost_call(&it->vhost, INTERRUPTS);
}

void pci_message(void *of, unsigned int function, unsigned int vector)
{
    (void)of;
    functions[function].due |= UINT64_C(1) << vector % VECTORS;
}

static void send_messages(void)
{
    bus_messages(run_bus);
    for (unsigned int i = 0; i < function_count; i++)
        send_due(&functions[i]);
}

uint64_t pci_messages(unsigned int function)
{
    return function < function_count ? functions[function].sent : 0;
}

/* ---- requests from the guest ---- */

void pci_order_to(pci_orders *to)
{
    orders = to;
}

static void carry_out(struct function *it)
{
    order_words.count = get(it->config + ORDER_COUNT, 4);
    order_words.first = get(it->config + ORDER_FIRST, 4);
    order_words.most = get(it->config + ORDER_MOST, 4);
    order_words.function = (uint16_t)get(it->config + ORDER_FUNCTION, 2);
    memcpy(order_words.mac, it->config + ORDER_MAC, sizeof order_words.mac);
    order_words.result = order_words.result_2 = 0;
    orders(get(it->config + ORDER_WHAT, 4), &order_words);
}

static void read_config(struct function *it, uint64_t at, uint8_t *to, uint32_t size)
{
    it->config_reads++;
    if (it->number == BUS_PHYSICAL) { /* results may change after the order was carried out */
        memcpy(it->config + ORDER_RESULT, &order_words.result, 4);
        memcpy(it->config + ORDER_RESULT_2, &order_words.result_2, 4);
    }
    for (uint32_t i = 0; i < size; i++)
        to[i] = at + i < CONFIG_BYTES ? it->config[at + i] : 0xFF;
}

static void write_config(struct function *it, uint64_t at, const uint8_t *data, uint32_t size)
{
    it->config_writes++;
    for (uint32_t i = 0; i < size && at + i < CONFIG_BYTES; i++)
        it->config[at + i] = (uint8_t)((it->config[at + i] & ~it->mask[at + i]) | (data[i] & it->mask[at + i]));
    if (it->number == BUS_PHYSICAL && at == ORDER_WHAT && size == 4)
        carry_out(it);
}

static void access_registers(const struct function *it, const struct operation_header *header, const uint8_t *data,
                             uint8_t *to)
{
    for (uint32_t i = 0; i < header->size; i += 4) {
        uint32_t offset = (uint32_t)header->address + i;
        uint32_t word;
        if (to) {
            word = bus_read(run_bus, it->number, offset);
            memcpy(to + i, &word, sizeof word);
        } else {
            memcpy(&word, data + i, sizeof word);
            bus_write(run_bus, it->number, offset, word);
        }
    }
}

static void access_table(struct function *it, const struct operation_header *header, const uint8_t *data, uint8_t *to)
{
    bool is_inside = header->address + header->size <= sizeof it->table;
    if (to)
        memset(to, 0, header->size);
    if (to && is_inside)
        memcpy(to, it->table + header->address, header->size);
    if (!to && is_inside)
        memcpy(it->table + header->address, data, header->size);
}

static void access_memory(struct function *it, const struct operation_header *header, const uint8_t *data, uint8_t *to)
{
    uint32_t space = it->number == BUS_PHYSICAL ? BUS_SPACE : BUS_FUNCTION_SPACE;
    if (header->bar == REGISTER_BAR && header->size % 4 == 0 && header->address % 4 == 0 &&
        header->address + header->size <= space)
        access_registers(it, header, data, to);
    else if (header->bar == TABLE_BAR && header->address + header->size <= TABLE_BYTES)
        access_table(it, header, data, to);
    else
        problem("an unsupported access to BAR %u at 0x%" PRIx64 ", %u bytes", header->bar, header->address,
                header->size);
}

/* Serves one message. Returns true if the guest waits for a reply. */
static bool answer(struct function *it, const struct vhost_chain *chain)
{
    struct operation_header header;
    const uint8_t *data = chain->out + sizeof header;
    if (chain->out_length < sizeof header) {
        problem("a message from the guest's bus is shorter than its header");
        return chain->in != NULL;
    }
    memcpy(&header, chain->out, sizeof header);
    bool is_read = header.operation == CONFIG_READ || header.operation == MEMORY_READ;
    if (header.size > (is_read ? chain->in_length : chain->out_length - sizeof header)) {
        problem("a message from the guest's bus has fewer bytes than its header specifies");
        return chain->in != NULL;
    }
    switch (header.operation) {
    case CONFIG_READ: read_config(it, header.address, chain->in, header.size); break;
    case CONFIG_WRITE: write_config(it, header.address, data, header.size); break;
    case MEMORY_READ: access_memory(it, &header, data, chain->in); break;
    case MEMORY_WRITE: access_memory(it, &header, data, NULL); break;
    default: problem("unknown operation %u from the guest's bus", header.operation);
    }
    return is_read;
}

/* Serves a function's requests. Messages are sent only in reply to writes: a guest that waits for a read must not be
   interrupted. */
static void kicked(void *owner, unsigned int ring)
{
    struct function *it = owner;
    struct vhost_chain chain;
    bool wrote = false;
    if (ring == INTERRUPTS) {
        send_due(it);
        return;
    }
    while (vhost_take(&it->vhost, ASKED, &chain)) {
        bool is_read = answer(it, &chain);
        vhost_give(&it->vhost, ASKED, &chain, is_read ? (uint32_t)chain.in_length : 0);
        it->posted = is_read ? 0 : it->posted + 1;
        wrote = wrote || !is_read;
    }
    if (it->posted >= SETTLE_WRITES) {
        vhost_call(&it->vhost, ASKED);
        it->posted = 0;
    }
    if (wrote)
        send_messages();
}

/* ---- the connection ---- */

bool pci_open(const char *path, uint16_t device, unsigned int virtual_functions)
{
    char name[256];
    function_count = 1 + virtual_functions;
    for (unsigned int i = 0; i < function_count; i++) {
        struct function *it = &functions[i];
        *it = (struct function){.number = i, .vhost = {.listener = -1, .kicked = kicked, .owner = it}};
        make_head(it, device);
        make_capabilities(it);
        if (i == BUS_PHYSICAL && virtual_functions)
            make_sriov(it, virtual_functions);
        if (i == BUS_PHYSICAL)
            snprintf(name, sizeof name, "%s", path);
        else
            snprintf(name, sizeof name, "%s.%u", path, i - 1);
        if (!vhost_listen(&it->vhost, name))
            return false;
    }
    return true;
}

/* Lends the guest's memory to the device as soon as the guest has reported it. Bus addresses are the guest's physical
   ones. */
static bool lend(void)
{
    static bool is_lent;
    uint64_t first = vhost_memory_first(), bytes = vhost_memory_bytes();
    if (is_lent || bytes == 0)
        return true;
    is_lent = memory_lend(&run_memory, first, vhost_memory(first, bytes), bytes);
    if (!is_lent)
        problem("the guest's memory, starting at 0x%" PRIx64 ", doesn't end at 128 MiB", first);
    return is_lent;
}

/* Serves one function with a pending request. Returns false if its connection has ended. */
static bool serve(struct function *it)
{
    if (it->vhost.socket < 0)
        return vhost_accept(&it->vhost);
    return vhost_serve(&it->vhost) && lend();
}

void pci_serve(void)
{
    bool has_ended[1 + FUNCTIONS_MOST] = {false};
    for (unsigned int left = function_count; left;) {
        struct pollfd files[1 + FUNCTIONS_MOST];
        for (unsigned int i = 0; i < function_count; i++) {
            int file = functions[i].vhost.socket < 0 ? functions[i].vhost.listener : functions[i].vhost.socket;
            files[i] = (struct pollfd){.fd = has_ended[i] ? -1 : file, .events = POLLIN};
        }
        if (poll(files, function_count, -1) < 0 && errno != EINTR) {
            problem("poll: %s", strerror(errno));
            return;
        }
        for (unsigned int i = 0; i < function_count; i++)
            if (files[i].revents && !serve(&functions[i])) {
                has_ended[i] = true;
                left--;
            }
    }
}

void pci_close(void)
{
    for (unsigned int i = 0; i < function_count; i++)
        vhost_close(&functions[i].vhost);
}

void pci_tell(void)
{
    for (unsigned int i = 0; i < function_count; i++) {
        const struct function *it = &functions[i];
        printf(i ? "virtual function %u" : "physical function ", i - 1);
        printf(": %" PRIu64 " register accesses, %" PRIu64 " accesses to configuration space; messages",
               bus_counts(run_bus)->accesses[i], it->config_reads + it->config_writes);
        for (unsigned int vector = 0; vector < VECTORS; vector++)
            if (it->by_vector[vector])
                printf(" %u:%" PRIu64, vector, it->by_vector[vector]);
        printf("\n");
    }
}
