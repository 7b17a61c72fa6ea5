/* Checks that interrupts go to the client that set up their vectors, no matter which client accessed a register last. A
   virtual function has two sockets: one for its own guest, and its shadow in the PF's guest. */
#define _GNU_SOURCE
#include <stdlib.h>
#include <string.h>
#include <sys/eventfd.h>
#include <unistd.h>

#include "../../tests/check.h"
#include "nic82599.h"
#include "peer/peer.h"

#define MSIX_CONTROL 0x72u
#define MSIX_ON 0x8000u
#define VECTORS 3u
#define PENDING 0x2000u /* offset in the table's BAR */
#define TABLE_BAR 3u
/* registers of a function */
#define VFSTATUS 0x008u
#define VTEICR 0x100u
#define VTEICS 0x104u
#define VTEIMS 0x108u

/* A client of a function, with an eventfd for each vector that it can set up. */
struct guest {
    struct peer peer;
    int events[VECTORS];
};

static struct guest own, shadow;
static struct peer host;
static char paths[2][120];

static void come(struct guest *it, const char *path)
{
    peer_open(&it->peer, path);
    CHECK(peer_version(&it->peer) == 0);
    peer_set_config(&it->peer, MSIX_CONTROL, 2, MSIX_ON);
    for (unsigned int i = 0; i < VECTORS; i++) {
        it->events[i] = eventfd(0, EFD_CLOEXEC | EFD_NONBLOCK);
        CHECK(it->events[i] >= 0);
    }
}

static void leave(struct guest *it)
{
    peer_close(&it->peer);
    for (unsigned int i = 0; i < VECTORS; i++)
        close(it->events[i]);
}

static void set_up(struct guest *it, uint32_t vector)
{
    CHECK(peer_vectors(&it->peer, vector, 1, &it->events[vector], 1) == 0);
}

static void take_away(struct guest *it, uint32_t vector)
{
    CHECK(peer_vectors(&it->peer, vector, 1, NULL, 0) == 0);
}

/* Makes a vector's message due through a client's register accesses. The message is sent in the same turn as the first
   reply, before the second reply. */
static void raise(struct guest *by, uint32_t vector)
{
    peer_write(&by->peer, VTEIMS, 1u << vector);
    peer_write(&by->peer, VTEICS, 1u << vector);
    peer_read(&by->peer, VFSTATUS);
    peer_read(&by->peer, VTEICR);
}

/* Returns how often a client was signalled for a vector since the last call. */
static uint64_t raised(const struct guest *it, uint32_t vector)
{
    uint64_t count = 0;
    return read(it->events[vector], &count, sizeof count) == (ssize_t)sizeof count ? count : 0;
}

static uint64_t pending(struct guest *it)
{
    struct vfu_access access = {PENDING, TABLE_BAR, 8};
    struct {
        struct vfu_access access;
        uint64_t bits;
    } reply;
    CHECK(peer_ask(&it->peer, VFU_REGION_READ, &access, sizeof access, NULL, 0, &reply, sizeof reply) == 0);
    return reply.bits;
}

/* Checks that each client gets the messages of the vectors that it set up, no matter which client writes registers. */
static void each_has_its_own(void)
{
    set_up(&own, 0);
    set_up(&shadow, 1);
    for (unsigned int i = 0; i < 8; i++) {
        struct guest *by = i & 1 ? &own : &shadow;
        uint32_t vector = i >> 1 & 1;
        raise(by, vector);
        CHECK(raised(&own, vector) == (vector == 0) && raised(&shadow, vector) == (vector == 1));
    }
    CHECK(pending(&own) == 0 && pending(&shadow) == 0);
}

/* Checks that if both clients set up a vector, its messages go to the virtual function's own guest, until that guest
   removes its eventfd. */
static void both_have_it(void)
{
    set_up(&shadow, 0);
    raise(&shadow, 0);
    CHECK(raised(&own, 0) == 1 && raised(&shadow, 0) == 0);
    take_away(&own, 0);
    raise(&own, 0);
    CHECK(raised(&own, 0) == 0 && raised(&shadow, 0) == 1 && pending(&own) == 0);
    take_away(&shadow, 0);
}

/* Checks that if neither client has set up a vector, its message waits until one does, and the other client never gets
   it. */
static void nobody_has_it(void)
{
    raise(&shadow, 2);
    CHECK(pending(&own) == 4 && pending(&shadow) == 0);
    set_up(&shadow, 2);
    CHECK(raised(&shadow, 2) == 0);
    set_up(&own, 2);
    CHECK(raised(&own, 2) == 1 && raised(&shadow, 2) == 0 && pending(&own) == 0);
}

/* Checks that if a client leaves or turns its MSI-X off, the other client gets the messages. */
static void one_goes(void)
{
    peer_set_config(&own.peer, MSIX_CONTROL, 2, 0);
    raise(&own, 2);
    CHECK(raised(&own, 2) == 0 && raised(&shadow, 2) == 1);
    peer_set_config(&own.peer, MSIX_CONTROL, 2, MSIX_ON);
    raise(&shadow, 2);
    CHECK(raised(&own, 2) == 1 && raised(&shadow, 2) == 0);
    leave(&own);
    come(&own, paths[0]); /* at this point the previous client has disconnected */
    raise(&own, 2);
    CHECK(raised(&own, 2) == 0 && raised(&shadow, 2) == 1);
}

/* Checks that the physical function's interrupts go only to its own client. */
static void host_is_apart(void)
{
    int event = eventfd(0, EFD_CLOEXEC | EFD_NONBLOCK);
    uint64_t count = 0;
    peer_set_config(&host, MSIX_CONTROL, 2, MSIX_ON);
    CHECK(peer_vectors(&host, 2, 1, &event, 1) == 0);
    set_up(&own, 2);
    raise(&own, 2);
    CHECK(raised(&own, 2) == 1 && raised(&shadow, 2) == 0 && read(event, &count, sizeof count) < 0);
    peer_write(&host, NIC_IVAR_MISC, 0x8200);
    peer_write(&host, NIC_EIMS, NIC_EIMS_LSC);
    peer_write(&host, NIC_EICS, NIC_EICS_LSC);
    peer_read(&host, NIC_STATUS);
    peer_read(&host, NIC_STATUS);
    CHECK(read(event, &count, sizeof count) == (ssize_t)sizeof count && count == 1);
    CHECK(raised(&own, 2) == 0 && raised(&shadow, 2) == 0);
    close(event);
}

int main(void)
{
    static const char *const words[] = {"--functions=1", "--quiet", NULL};
    const char *path = server_start(words);
    snprintf(paths[0], sizeof paths[0], "%s.vf0", path);
    snprintf(paths[1], sizeof paths[1], "%s.shadow0", path);
    peer_open(&host, path);
    CHECK(peer_version(&host) == 0);
    peer_write(&host, NIC_GCR_EXT, 3); /* selects 64 pools, so the virtual functions exist */
    peer_read(&host, NIC_STATUS);
    come(&own, paths[0]);
    come(&shadow, paths[1]);
    each_has_its_own();
    both_have_it();
    nobody_has_it();
    one_goes();
    host_is_apart();
    leave(&own);
    leave(&shadow);
    peer_close(&host);
    server_stop();
    printf("interrupts: passed\n");
    return 0;
}
