#define _GNU_SOURCE
#include "function.h"

#include <inttypes.h>
#include <poll.h>
#include <string.h>
#include <unistd.h>

#include "bus.h"
#include "card.h"
#include "closer.h"
#include "local_socket.h"
#include "log.h"

#define INTEL 0x8086u
#define VIRTUAL_DEVICE 0x10EDu
#define NOBODY 0xFFFFu /* a shadow's ID, which scans for devices skip */
#define ETHERNET 0x02000001u
#define COMMANDS 0x0546u

#define VECTORS 64
#define TABLE_BAR 4
#define VIRTUAL_TABLE_BAR 3
#define PENDING_AT 0x2000u /* offset of the pending bits in the table's BAR */

/* offsets of capabilities, as on the card */
#define POWER 0x40u
#define MSI 0x50u
#define MSIX 0x70u
#define EXPRESS 0xA0u
#define SRIOV 0x100u /* on the card at 0x160, after other capabilities */

static unsigned int table_bar(const struct function *it)
{
    return it->kind == FUNCTION_PHYSICAL ? TABLE_BAR : VIRTUAL_TABLE_BAR;
}

static uint32_t register_bytes(const struct function *it)
{
    return it->kind == FUNCTION_PHYSICAL ? BUS_SPACE : BUS_FUNCTION_SPACE;
}

static unsigned int vectors_of(const struct function *it)
{
    return it->kind == FUNCTION_PHYSICAL ? VECTORS : FUNCTION_VIRTUAL_VECTORS;
}

/* Returns whether the physical function supports this kind of interrupt. */
static bool has_kind(const struct function *it, enum card_interrupts kind)
{
    return it->kind == FUNCTION_PHYSICAL && kind <= it->card->options.interrupts;
}

/* ---- configuration space ---- */

/* A root port's slot has only functions 0 to 7, so the virtual functions follow the physical function directly. On the
   card their numbers begin 128 later, and only every second number is used. */
static void make_config(struct function *it)
{
    const struct pci_identity identity = {
        .vendor = it->kind == FUNCTION_SHADOW ? NOBODY : INTEL,
        .device = it->kind == FUNCTION_PHYSICAL  ? it->device
                  : it->kind == FUNCTION_VIRTUAL ? VIRTUAL_DEVICE
                                                 : NOBODY,
        .subsystem_vendor = INTEL,
        .subsystem = 0x000C,
        .class_revision = ETHERNET,
        .command_mask = COMMANDS,
    };
    pci_begin(&it->config, &identity);
    pci_add_bar64(&it->config, 0, 0);
    pci_add_bar64(&it->config, table_bar(it), 0);
    pci_add_power(&it->config, POWER);
    if (it->kind == FUNCTION_PHYSICAL)
        pci_add_pin(&it->config);
    if (has_kind(it, CARD_MSI))
        pci_add_msi(&it->config, MSI);
    if (has_kind(it, CARD_MSIX) || it->kind != FUNCTION_PHYSICAL)
        pci_add_msix(&it->config, MSIX, vectors_of(it), table_bar(it), 0, PENDING_AT);
    pci_add_express(&it->config, EXPRESS);
    if (it->kind == FUNCTION_PHYSICAL && it->virtual_functions) {
        const struct pci_sriov sriov = {.functions = (uint16_t)it->virtual_functions,
                                        .first = 1,
                                        .stride = 1,
                                        .device = VIRTUAL_DEVICE,
                                        .bars = {0, VIRTUAL_TABLE_BAR},
                                        .bar_bytes = {BUS_FUNCTION_SPACE, FUNCTION_TABLE_BYTES}};
        pci_add_sriov(&it->config, SRIOV, &sriov);
    }
}

static void reset_registers(struct function *it)
{
    it->session.vectors.pending = 0;
    line_forget(&it->session.line);
    card_reset_function(it->card, it);
}

/* QEMU removes the SR-IOV capability if it finds one, and leaves extended space to the device if it finds none. So the
   capability is hidden until the first reset, which comes after QEMU has looked. */
static bool is_hidden(const struct function *it, uint64_t at)
{
    return at >= PCI_EXTENDED && !it->shows_sriov;
}

static void access_config(struct function *it, uint64_t offset, uint8_t *bytes, uint32_t length, bool write)
{
    uint32_t shown = length;
    it->counts.config_reads += !write;
    it->counts.config_writes += write;
    while (shown && is_hidden(it, offset + shown - 1))
        shown--;
    if (write) {
        pci_write(&it->config, (unsigned int)offset, bytes, shown);
        if (pci_takes_reset(&it->config))
            reset_registers(it);
        card_rearmed(it->card);
        return;
    }
    memset(bytes + shown, 0, length - shown);
    pci_line_status(&it->config, it->kind == FUNCTION_PHYSICAL && card_causes(it->card) != 0);
    pci_read(&it->config, (unsigned int)offset, bytes, shown);
}

/* ---- registers and table ---- */

static void access_registers(struct function *it, uint64_t offset, uint8_t *bytes, uint32_t length, bool write)
{
    if (offset % 4 || length % 4) {
        if (it->counts.odd_accesses++ == 0)
            log_client(it->socket, LOG_ACCESS,
                       "%s: a %" PRIu32 "-byte access at 0x%05" PRIx64
                       ", but register accesses must be aligned and 4 bytes long",
                       it->path, length, offset);
        if (!write)
            memset(bytes, 0xFF, length);
        return;
    }
    for (uint32_t i = 0; i < length; i += 4) {
        uint32_t word;
        memcpy(&word, bytes + i, sizeof word);
        if (write)
            card_write(it->card, it, (uint32_t)offset + i, word);
        else
            word = card_read(it->card, it, (uint32_t)offset + i);
        memcpy(bytes + i, &word, sizeof word);
    }
}

/* The client keeps the table itself, and reads the pending bits from here. */
static void access_table(struct function *it, uint64_t offset, uint8_t *bytes, uint32_t length, bool write)
{
    memcpy(it->table + PENDING_AT, &it->session.vectors.pending, sizeof it->session.vectors.pending);
    if (write)
        memcpy(it->table + offset, bytes, length);
    else
        memcpy(bytes, it->table + offset, length);
}

/* ---- calls from the session ---- */

static uint64_t region_bytes(void *function, uint32_t region)
{
    const struct function *it = function;
    if (region == VFU_CONFIG_REGION)
        return PCI_CONFIG_BYTES;
    if (region == 0)
        return register_bytes(it);
    return region == table_bar(it) ? FUNCTION_TABLE_BYTES : 0;
}

static bool access_region(void *function, uint32_t region, uint64_t offset, uint8_t *bytes, uint32_t length, bool write)
{
    struct function *it = function;
    if (region == VFU_CONFIG_REGION)
        access_config(it, offset, bytes, length, write);
    else if (region == 0)
        access_registers(it, offset, bytes, length, write);
    else
        access_table(it, offset, bytes, length, write);
    return true;
}

static void reset(void *function)
{
    struct function *it = function;
    make_config(it);
    it->shows_sriov = it->kind == FUNCTION_PHYSICAL && it->virtual_functions != 0;
    reset_registers(it);
}

static void remapped(void *function)
{
    struct function *it = function;
    card_remapped(it->card, it);
}

static void rearmed(void *function)
{
    struct function *it = function;
    card_rearmed(it->card);
}

static bool may_serve(void *function)
{
    struct function *it = function;
    return card_may_serve(it->card, it);
}

static bool may_go_on(void *function)
{
    struct function *it = function;
    return card_may_go_on(it->card, it);
}

static const struct session_calls calls = {region_bytes, access_region, reset, remapped, rearmed, may_serve, may_go_on};

enum function_ready function_ready(const struct function *it, unsigned int vector)
{
    if (!session_is_open(&it->session))
        return FUNCTION_ABSENT;
    if (!pci_msix_is_on(&it->config))
        return FUNCTION_DEAF;
    return vectors_has(&it->session.vectors, vector) ? FUNCTION_TAKES : FUNCTION_WAITS;
}

void function_message(struct function *it, unsigned int vector)
{
    if (pci_msix_is_on(&it->config))
        vectors_raise(&it->session.vectors, vector);
    else
        it->counts.lost_messages++;
}

bool function_has_line(const struct function *it)
{
    return it->kind == FUNCTION_PHYSICAL && session_is_open(&it->session) && !pci_msix_is_on(&it->config);
}

bool function_line(struct function *it, uint32_t causes)
{
    if (pci_msi_is_on(&it->config))
        return line_causes(&it->session.line, causes);
    return line_level(&it->session.line, causes != 0 && pci_line_is_on(&it->config));
}

void function_line_after_access(struct function *it, uint32_t causes)
{
    line_after_access(&it->session.line, causes);
}

/* ---- sockets ---- */

void function_begin(struct function *it)
{
    it->listener = -1;
    make_config(it);
    session_begin(&it->session, &calls, it, vectors_of(it), it->kind == FUNCTION_PHYSICAL, it->socket);
    it->session.name = it->path;
    card_add(it->card, it);
}

const char *function_listen(struct function *it)
{
    return local_listen(&it->listener, it->path, 4);
}

/* Returns whether the client has hung up, so that only messages sent before that remain. */
static bool is_leaving(const struct session *it)
{
    struct pollfd poll_for = {it->channel.file, POLLRDHUP, 0};
    return session_is_open(it) && poll(&poll_for, 1, 0) == 1;
}

/* While a client is leaving, the next one waits at the socket. */
void function_accept(struct function *it)
{
    if (!it->is_leaving && is_leaving(&it->session))
        function_serve(it, POLLRDHUP);
    if (it->is_leaving)
        return;
    int file = local_accept(it->listener);
    if (file < 0)
        return;
    if (session_is_open(&it->session)) {
        log_client(it->socket, LOG_CLIENT, "%s: a second client is rejected", it->path);
        closer_close_foreign(file, it->socket);
        return;
    }
    session_open(&it->session, file);
    log_client(it->socket, LOG_CLIENT, "%s: a client connected", it->path);
}

void function_polls(const struct function *it, struct pollfd polls[FUNCTION_POLLS])
{
    const struct session *session = &it->session;
    bool accepts = !it->is_leaving && !local_rests() && !closer_is_full(it->socket);
    short events = channel_waiting(&session->channel) ? POLLOUT : 0;
    if (session_is_ready(session))
        events |= POLLIN;
    if (!it->is_leaving)
        events |= POLLRDHUP;
    polls[0] = (struct pollfd){.fd = accepts ? it->listener : -1, .events = POLLIN};
    polls[1] = (struct pollfd){.fd = events ? session->channel.file : -1, .events = events};
    polls[2] = (struct pollfd){.fd = line_unmask_file(&session->line), .events = POLLIN};
}

bool function_has_more(const struct function *it)
{
    const struct session *session = &it->session;
    return session_is_open(session) && (session->is_stalled || session_is_paused(session)) && session_is_ready(session);
}

bool function_is_busy(const struct function *it)
{
    return session_is_busy(&it->session);
}

/* Resets the function for the next client. The other functions keep running, as if this client's machine had been
   switched off. */
static void gone(struct function *it)
{
    log_client(it->socket, LOG_CLIENT, "%s: its client disconnected", it->path);
    make_config(it);
    it->shows_sriov = it->is_leaving = false;
    reset_registers(it);
    card_client_goes(it->card, it);
    it->client++;
}

/* Returns whether the client counts as disconnected: it sends no more, and leaves too many replies unread. */
static bool is_gone(const struct function *it)
{
    return it->is_leaving && channel_waiting(&it->session.channel) > CHANNEL_KEPT;
}

void function_serve(struct function *it, short events)
{
    bool is_open = session_is_open(&it->session);
    it->is_leaving = it->is_leaving || events & (POLLRDHUP | POLLHUP | POLLERR);
    if (is_open && events & POLLOUT)
        is_open = session_flush(&it->session);
    if (is_open && session_is_ready(&it->session) && (it->is_leaving || events & POLLIN || function_has_more(it)))
        is_open = session_serve(&it->session);
    if (is_open && is_gone(it)) {
        session_close(&it->session);
        is_open = false;
    }
    if (!is_open)
        gone(it);
}

void function_unmask(struct function *it)
{
    session_unmask(&it->session);
}

void function_end(struct function *it)
{
    session_close(&it->session);
    session_end(&it->session);
    if (it->listener >= 0) {
        close(it->listener);
        local_forget(it->path);
    }
    it->listener = -1;
}
