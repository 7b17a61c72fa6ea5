/* Checks a guest whose MSI-X is off: the line (INTx) follows the level of EICR & EIMS, and MSI is sent for each new
   cause. */
#define _GNU_SOURCE
#include <string.h>
#include <sys/eventfd.h>
#include <unistd.h>

#include "../../tests/check.h"
#include "nic82599.h"
#include "peer/kernel.h"
#include "peer/peer.h"

enum { INTX, MSI, MSIX }; /* kinds of interrupts, as the protocol numbers them */
enum { NONE = 1, BOOL = 2, EVENTFD = 4, MASK = 0x08, UNMASK = 0x10, TRIGGER = 0x20 };

#define COMMAND 0x04u
#define COMMAND_LINE_OFF 0x0400u
#define STATUS 0x06u
#define STATUS_LINE 0x0008u
#define PIN 0x3Du
#define MSI_CONTROL 0x52u
#define MSIX_CONTROL 0x72u
#define CAUSE_A NIC_EICS_LSC
#define CAUSE_B NIC_EICS_MAILBOX

static struct peer peer;
static int event, unmask; /* `event` notifies the client; the client signals `unmask` to unmask the line */

static uint32_t set_of(struct peer *of, uint32_t kind, uint32_t flags, uint32_t count, const int *file, uint8_t named)
{
    struct {
        struct vfu_irq_set set;
        uint8_t named[4];
    } asked = {{sizeof asked, flags, kind, 0, count}, {named}};
    return peer_ask(of, VFU_DEVICE_SET_IRQS, &asked, sizeof asked, file, file != NULL, NULL, 0);
}

static uint32_t set(uint32_t kind, uint32_t flags, uint32_t count)
{
    return set_of(&peer, kind, flags, count, flags & EVENTFD ? &event : NULL, 1);
}

static uint32_t unmask_by(const int *file)
{
    return set_of(&peer, INTX, EVENTFD | UNMASK, 1, file, 0);
}

static void signal_unmask(uint64_t count)
{
    CHECK(write(unmask, &count, sizeof count) == (ssize_t)sizeof count);
}

static struct vfu_irq_info info_of(struct peer *of, uint32_t kind)
{
    struct vfu_irq_info info = {sizeof info, 0, kind, 0};
    CHECK(peer_ask(of, VFU_DEVICE_GET_IRQ_INFO, &info, sizeof info, NULL, 0, &info, sizeof info) == 0);
    return info;
}

/* Returns how often the client was notified since the last call. The consequences of an access occur in the same turn
   as the first reply, before the second reply. */
static uint64_t informed(void)
{
    uint64_t count = 0;
    peer_read(&peer, NIC_STATUS);
    peer_read(&peer, NIC_STATUS);
    return read(event, &count, sizeof count) == (ssize_t)sizeof count ? count : 0;
}

static bool status_says(void)
{
    return (peer_config(&peer, STATUS, 2) & STATUS_LINE) != 0;
}

static void set_causes(uint32_t causes)
{
    peer_write(&peer, NIC_EICS, causes);
}

/* Sends the requests that QEMU sends before a reset and before it switches to another kind of interrupt. */
static void begin(void)
{
    CHECK(set(INTX, NONE | TRIGGER, 0) == 0 && set(MSI, NONE | TRIGGER, 0) == 0);
    CHECK(peer_ask(&peer, VFU_DEVICE_RESET, NULL, 0, NULL, 0, NULL, 0) == 0);
    peer_write(&peer, NIC_EIMS, CAUSE_A | CAUSE_B);
}

/* The physical function has one line and one MSI vector. */
static void kinds(void)
{
    struct vfu_irq_info line = info_of(&peer, INTX);
    CHECK(line.count == 1 && line.flags == 7); /* an eventfd, maskable, masks itself */
    CHECK(info_of(&peer, MSI).count == 1 && info_of(&peer, MSI).flags == 1);
    CHECK(info_of(&peer, MSIX).count == 64);
    CHECK(peer_config(&peer, PIN, 1) == 1);
}

/* Checks that the client is notified of the level once, and each time it unmasks the line while the level is high. */
static void level(void)
{
    begin();
    CHECK(set(INTX, EVENTFD | TRIGGER, 1) == 0 && informed() == 0 && !status_says());
    set_causes(CAUSE_A);
    CHECK(informed() == 1 && status_says());
    set_causes(CAUSE_B);
    CHECK(informed() == 0);
    CHECK(set(INTX, NONE | UNMASK, 1) == 0 && informed() == 1);
    CHECK(peer_read(&peer, NIC_EICR) != 0 && !status_says());
    CHECK(set(INTX, BOOL | UNMASK, 1) == 0 && informed() == 0);
    set_causes(CAUSE_B);
    CHECK(informed() == 1);
}

/* Checks that the line stays down if EIMS doesn't enable the cause, if the command register disables the line, or if
   the client masks it. Unmasking zero lines is a no-op. */
static void kept_down(void)
{
    begin();
    CHECK(set(INTX, EVENTFD | TRIGGER, 1) == 0);
    peer_write(&peer, NIC_EIMC, CAUSE_A);
    set_causes(CAUSE_A);
    CHECK(informed() == 0 && !status_says());
    CHECK(set(INTX, NONE | MASK, 1) == 0);
    peer_write(&peer, NIC_EIMS, CAUSE_A);
    CHECK(informed() == 0 && status_says());
    CHECK(set(INTX, NONE | UNMASK, 0) == 0 && informed() == 0);
    CHECK(set_of(&peer, INTX, BOOL | UNMASK, 1, NULL, 0) == 0 && informed() == 0);
    peer_set_config(&peer, COMMAND, 2, COMMAND_LINE_OFF);
    CHECK(set(INTX, NONE | UNMASK, 1) == 0 && informed() == 0);
    peer_set_config(&peer, COMMAND, 2, 0);
    CHECK(informed() == 1);
}

/* Checks that a client that passes its eventfd late is notified at that time. Without an eventfd, no client is
   notified, and nothing waits. */
static void eventfd_comes_and_goes(void)
{
    begin();
    set_causes(CAUSE_A);
    CHECK(informed() == 0);
    CHECK(set(INTX, EVENTFD | TRIGGER, 1) == 0 && informed() == 1);
    CHECK(set(INTX, NONE | TRIGGER, 0) == 0);
    CHECK(peer_read(&peer, NIC_EICR) != 0);
    CHECK(set(INTX, EVENTFD | TRIGGER, 1) == 0 && informed() == 0);
}

/* Unmasks the line with an eventfd, as QEMU does with KVM. Each signal unmasks the line once, and is read even if the
   line isn't masked. Reading the eventfd would block (it isn't O_NONBLOCK), but the server doesn't wait for it. */
static void unmasked_by_an_eventfd(void)
{
    begin();
    CHECK(set(INTX, EVENTFD | TRIGGER, 1) == 0 && unmask_by(&unmask) == 0);
    set_causes(CAUSE_A);
    CHECK(informed() == 1 && informed() == 0);
    signal_unmask(1);
    CHECK(informed() == 1 && informed() == 0);
    signal_unmask(UINT64_MAX - 1); /* as full as possible */
    CHECK(informed() == 1 && informed() == 0);
    CHECK(peer_read(&peer, NIC_EICR) != 0);
    signal_unmask(1);
    CHECK(informed() == 0);
    signal_unmask(1);
    CHECK(informed() == 0);
    set_causes(CAUSE_A);
    CHECK(informed() == 1 && informed() == 0);
    CHECK(set(INTX, NONE | UNMASK, 1) == 0 && informed() == 1);
}

/* An eventfd that was signalled before it is passed unmasks the line when it is passed. Passing no file removes it, and
   so does removing the line's own eventfd. */
static void unmask_comes_and_goes(void)
{
    begin();
    CHECK(set(INTX, EVENTFD | TRIGGER, 1) == 0 && set(INTX, NONE | MASK, 1) == 0);
    set_causes(CAUSE_A);
    CHECK(informed() == 0);
    signal_unmask(1);
    CHECK(unmask_by(&unmask) == 0 && informed() == 1);
    CHECK(unmask_by(NULL) == 0);
    signal_unmask(1);
    CHECK(informed() == 0);
    CHECK(unmask_by(&unmask) == 0 && informed() == 1);
    CHECK(set(INTX, NONE | TRIGGER, 0) == 0 && set(INTX, EVENTFD | TRIGGER, 1) == 0 && informed() == 1);
    signal_unmask(1);
    CHECK(informed() == 0);
    uint64_t count = 0;
    CHECK(read(unmask, &count, sizeof count) == (ssize_t)sizeof count && count == 1); /* not read by the server */
}

/* A client that passes one eventfd for the pin and for unmasking is notified again and again, once in each turn, and is
   still answered. */
static void one_for_both(void)
{
    begin();
    CHECK(set(INTX, EVENTFD | TRIGGER, 1) == 0 && unmask_by(&event) == 0);
    set_causes(CAUSE_A);
    for (unsigned int i = 0; i < 100; i++)
        peer_read(&peer, NIC_STATUS);
    CHECK(peer_read(&peer, NIC_EICR) != 0);
    CHECK(set(INTX, NONE | TRIGGER, 0) == 0);
    informed();
    CHECK(informed() == 0);
}

/* Files that aren't eventfds are refused, and nothing is read from them. */
static void no_eventfd(void)
{
    int ends[2];
    char byte = 0;
    CHECK(pipe(ends) == 0 && write(ends[1], "x", 1) == 1);
    begin();
    CHECK(set(INTX, EVENTFD | TRIGGER, 1) == 0 && unmask_by(&ends[0]) != 0);
    CHECK(read(ends[0], &byte, 1) == 1 && byte == 'x');
    close(ends[0]);
    close(ends[1]);
}

/* MSI is edge-triggered: there is one message for each new cause, even if the cause was cleared and set in one turn. */
static void messages(void)
{
    begin();
    peer_set_config(&peer, MSI_CONTROL, 2, 1);
    CHECK(set(MSI, EVENTFD | TRIGGER, 1) == 0);
    set_causes(CAUSE_A);
    CHECK(informed() == 1);
    CHECK(informed() == 0);
    set_causes(CAUSE_A);
    CHECK(informed() == 0);
    set_causes(CAUSE_B);
    CHECK(informed() == 1);
    peer_write(&peer, NIC_EICR, CAUSE_A);
    set_causes(CAUSE_A);
    CHECK(informed() == 1);
    peer_write(&peer, NIC_EIMC, CAUSE_A | CAUSE_B);
    peer_write(&peer, NIC_EIMS, CAUSE_A | CAUSE_B);
    CHECK(informed() == 1);
    peer_set_config(&peer, MSI_CONTROL, 2, 0);
}

/* Checks that with MSI-X on, the line isn't used, and that causes without a vector notify no client. */
static void with_msix(void)
{
    begin();
    CHECK(set(INTX, EVENTFD | TRIGGER, 1) == 0);
    peer_set_config(&peer, MSIX_CONTROL, 2, 0x8000);
    set_causes(CAUSE_A);
    CHECK(informed() == 0);
    peer_set_config(&peer, MSIX_CONTROL, 2, 0);
    CHECK(informed() == 1);
}

/* Checks that invalid requests are refused, and that a virtual function has neither a line nor MSI. */
static void refused(struct peer *function)
{
    CHECK(set(INTX, EVENTFD | MASK, 1) != 0 && set(INTX, NONE | TRIGGER | MASK, 1) != 0);
    CHECK(set(INTX, EVENTFD | UNMASK, 0) != 0 && set(MSI, EVENTFD | UNMASK, 1) != 0);
    CHECK(set(MSI, NONE | MASK, 1) != 0 && set(MSIX, NONE | UNMASK, 1) != 0);
    CHECK(set(INTX, EVENTFD | TRIGGER, 2) != 0 && set(INTX, EVENTFD | TRIGGER, 0) != 0);
    CHECK(set(INTX, NONE | UNMASK, 2) != 0);
    CHECK(info_of(function, INTX).count == 0 && info_of(function, MSI).count == 0);
    CHECK(set_of(function, INTX, EVENTFD | TRIGGER, 1, &event, 0) != 0);
    CHECK(set_of(function, MSI, EVENTFD | TRIGGER, 1, &event, 0) != 0);
    CHECK(set_of(function, INTX, EVENTFD | UNMASK, 1, &event, 0) != 0);
    CHECK(peer_config(function, PIN, 1) == 0);
}

int main(void)
{
    static const char *const words[] = {"--functions=1", "--quiet", NULL};
    const char *path = server_start(words);
    bool has_reads = kernel_has_reads();
    struct peer function;
    char its[120];
    snprintf(its, sizeof its, "%s.vf0", path);
    event = eventfd(0, EFD_CLOEXEC | EFD_NONBLOCK);
    unmask = eventfd(0, EFD_CLOEXEC);
    peer_open(&peer, path);
    peer_open(&function, its);
    CHECK(event >= 0 && unmask >= 0 && peer_version(&peer) == 0 && peer_version(&function) == 0);
    kinds();
    level();
    kept_down();
    eventfd_comes_and_goes();
    if (has_reads) {
        unmasked_by_an_eventfd();
        unmask_comes_and_goes();
        one_for_both();
    }
    no_eventfd();
    messages();
    with_msix();
    refused(&function);
    peer_close(&function);
    peer_close(&peer);
    server_stop();
    close(event);
    close(unmask);
    printf("levels: passed%s\n",
           has_reads ? "" : "; not tried, since this kernel has no asynchronous reads: an unmask by an eventfd");
    return 0;
}
