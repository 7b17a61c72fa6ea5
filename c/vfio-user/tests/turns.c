/* Checks that the work for one client, or for the wire's other end, is bounded in each turn. The remaining work follows
   in later turns, in order. */
#define _GNU_SOURCE
#include <errno.h>
#include <signal.h>
#include <string.h>
#include <sys/eventfd.h>
#include <sys/mman.h>
#include <sys/socket.h>
#include <sys/un.h>
#include <unistd.h>

#include "../../tests/check.h"
#include "log.h"
#include "notifier.h"
#include "peer/kernel.h"
#include "peer/peer.h"
#include "session.h"
#include "wire.h"

#define WRITES 340u /* writes in one message */
#define A_TURN 16u
#define VECTORS 64u
#define SENDERS 16u
#define PASSED_OVER 8u

/* ---- a message of many writes ---- */

static struct session session;
static uint64_t accesses, turn;

static uint64_t region_bytes(void *function, uint32_t region)
{
    (void)function;
    return region == 0 ? 0x10000 : 0;
}

/* Checks that each write arrives once and in order. */
static bool access_region(void *function, uint32_t region, uint64_t offset, uint8_t *bytes, uint32_t length, bool write)
{
    uint32_t word;
    (void)function;
    memcpy(&word, bytes, sizeof word);
    CHECK(region == 0 && length == 4);
    if (write)
        CHECK(offset == 4 * accesses && word == (uint32_t)~offset);
    accesses += write;
    turn++;
    return true;
}

static bool always(void *function)
{
    (void)function;
    return true;
}

static bool for_a_while(void *function)
{
    (void)function;
    return turn < A_TURN;
}

static void nothing(void *function)
{
    (void)function;
}

static const struct session_calls calls = {.region_bytes = region_bytes,
                                           .access = access_region,
                                           .rearmed = nothing,
                                           .may_serve = always,
                                           .may_go_on = for_a_while};

static struct peer begin(void)
{
    const struct vfu_version version = {0, 0};
    int ends[2];
    CHECK(socketpair(AF_UNIX, SOCK_STREAM, 0, ends) == 0);
    session_begin(&session, &calls, NULL, VECTORS, true, 0);
    session_open(&session, ends[0]);
    struct peer peer = {ends[1], 0};
    peer_send(&peer, VFU_VERSION, VFU_NO_REPLY, &version, sizeof version, NULL, 0);
    CHECK(session_serve(&session));
    accesses = turn = 0;
    return peer;
}

/* Sends the writes, with an invalid last one if requested. Returns the message's number. */
static uint16_t send_writes(struct peer *peer, bool is_wrong)
{
    static struct {
        struct vfu_writes head;
        struct vfu_write each[WRITES];
    } body;
    body.head.count = WRITES;
    for (uint32_t i = 0; i < WRITES; i++) {
        uint32_t word = ~(4 * i);
        body.each[i] = (struct vfu_write){.offset = 4 * i, .region = 0, .count = 4};
        memcpy(body.each[i].data, &word, sizeof word);
    }
    if (is_wrong)
        body.each[WRITES - 1].count = 9;
    return peer_send(peer, VFU_REGION_WRITE_MULTI, 0, &body, sizeof body, NULL, 0);
}

static bool has_reply(const struct peer *peer)
{
    char byte;
    return recv(peer->file, &byte, 1, MSG_PEEK | MSG_DONTWAIT) == 1;
}

/* Checks that a limited number of accesses is performed in each turn. The reply follows the last access, and precedes
   the next message's reply. */
static void many_writes(bool is_wrong)
{
    struct peer peer = begin();
    const struct vfu_access status = {0, 0, 4};
    uint8_t room[64];
    uint16_t writes = send_writes(&peer, is_wrong);
    uint16_t read = peer_send(&peer, VFU_REGION_READ, 0, &status, sizeof status, NULL, 0);
    unsigned int turns = 0;
    do {
        CHECK(!has_reply(&peer));
        turn = 0;
        CHECK(session_serve(&session) && turn <= A_TURN + 1);
        turns++;
    } while (session_is_paused(&session));
    CHECK(accesses == WRITES - is_wrong && turns >= WRITES / A_TURN);
    CHECK((peer_reply(&peer, writes, room, sizeof room) != 0) == is_wrong);
    CHECK(peer_reply(&peer, read, room, sizeof room) == 0);
    CHECK(session.counts.multiple == 1 && session.counts.messages == 3 && session.counts.writes == WRITES);
    session_close(&session);
    session_end(&session);
    close(peer.file);
}

/* ---- a message of many interrupts ---- */

static bool never(void *function)
{
    (void)function;
    return false;
}

static uint64_t raised(int event)
{
    uint64_t count = 0;
    return read(event, &count, sizeof count) == (ssize_t)sizeof count ? count : 0;
}

/* Serves until no work remains, with at most one interrupt in each turn. Returns the number of interrupts. */
static uint64_t interrupts(int event)
{
    uint64_t all = 0, now;
    do {
        CHECK(session_serve(&session));
        now = raised(event);
        CHECK(now <= 1);
        all += now;
    } while (session_is_paused(&session));
    return all;
}

/* Checks interrupts that are sent immediately, and interrupts that waited for their file. Their cost isn't known: the
   kernel notifies everything that watches an eventfd, and a client can have any number of watchers. */
static void many_interrupts(void)
{
    static const struct session_calls slowly = {.rearmed = nothing, .may_serve = always, .may_go_on = never};
    const struct vfu_irq_set raise = {sizeof raise, VFU_SET_NONE | VFU_SET_TRIGGER, VFU_MSIX, 0, VECTORS};
    struct peer peer = begin();
    int event = eventfd(0, EFD_CLOEXEC | EFD_NONBLOCK), files[VFU_FILES_MOST];
    uint8_t room[64];
    session.calls = &slowly;
    for (unsigned int i = 0; i < VFU_FILES_MOST; i++)
        files[i] = event;
    uint16_t first = peer_send(&peer, VFU_DEVICE_SET_IRQS, 0, &raise, sizeof raise, NULL, 0);
    CHECK(interrupts(event) == 0 && peer_reply(&peer, first, room, sizeof room) == 0); /* all interrupts wait */
    const struct vfu_irq_set give = {sizeof give, VFU_SET_EVENTFD | VFU_SET_TRIGGER, VFU_MSIX, 0, VFU_FILES_MOST};
    uint16_t second = peer_send(&peer, VFU_DEVICE_SET_IRQS, 0, &give, sizeof give, files, VFU_FILES_MOST);
    CHECK(interrupts(event) == VFU_FILES_MOST && peer_reply(&peer, second, room, sizeof room) == 0);
    uint16_t third = peer_send(&peer, VFU_DEVICE_SET_IRQS, 0, &raise, sizeof raise, NULL, 0);
    CHECK(interrupts(event) == VFU_FILES_MOST && peer_reply(&peer, third, room, sizeof room) == 0);
    session_close(&session);
    session_end(&session);
    close(peer.file);
    close(event);
}

/* Disconnects a client halfway through its messages. The next client must be served from its own first message on. */
static void one_goes(void)
{
    struct peer peer = begin();
    send_writes(&peer, false);
    CHECK(session_serve(&session) && session_is_paused(&session));
    session_close(&session);
    close(peer.file);
    peer = begin();
    CHECK(session_serve(&session) && !session_is_paused(&session) && accesses == 0);
    session_close(&session);
    session_end(&session);
    close(peer.file);
}

/* ---- datagrams that aren't frames ---- */

static void long_datagrams(const char *folder)
{
    static struct wire wire;
    static uint8_t bytes[WIRE_FRAME_MOST + 1];
    char own[100];
    snprintf(own, sizeof own, "%s/own", folder);
    const struct wire_options options = {.kind = WIRE_DGRAM, .path = own, .peer = "/nowhere"};
    struct sockaddr_un name = {.sun_family = AF_UNIX};
    strcpy(name.sun_path, own);
    CHECK(wire_open(&wire, &options));
    int senders[SENDERS];
    uint64_t sent = 0;
    for (unsigned int i = 0; i < SENDERS; i++) {
        senders[i] = socket(AF_UNIX, SOCK_DGRAM | SOCK_CLOEXEC, 0);
        CHECK(connect(senders[i], (const struct sockaddr *)&name, sizeof name) == 0);
        sent += send(senders[i], bytes, sizeof bytes, MSG_DONTWAIT) == (ssize_t)sizeof bytes;
    }
    while (wire.counts.too_long < sent) {
        uint64_t before = wire.counts.too_long;
        CHECK(wire_next(&wire, false) == 0 && wire.counts.too_long > before);
        CHECK(wire.counts.too_long <= before + PASSED_OVER);
    }
    CHECK(send(senders[0], bytes, 77, MSG_DONTWAIT) == 77 && wire_next(&wire, false) == 77);
    for (unsigned int i = 0; i < SENDERS; i++)
        close(senders[i]);
    wire_close(&wire);
}

/* ---- memory ---- */

#define GIBIBYTE (UINT64_C(1) << 30)

/* Checks that each client can map as much of one file as its limit allows, and no more. The file costs the client
   nothing. */
static void bytes_of_memory(void)
{
    static const char *const words[] = {"--functions=1", "--client-memory=1", "--quiet", NULL};
    const char *path = server_start(words);
    char other_path[120];
    struct peer peer, other;
    int file = memfd_create("memory", MFD_CLOEXEC);
    snprintf(other_path, sizeof other_path, "%s.vf0", path);
    peer_open(&peer, path);
    peer_open(&other, other_path);
    CHECK(file >= 0 && ftruncate(file, (off_t)(4 * GIBIBYTE)) == 0);
    CHECK(peer_version(&peer) == 0 && peer_version(&other) == 0);
    CHECK(peer_map(&peer, 0, 2 * GIBIBYTE, 0, 3, file) == EFBIG);
    CHECK(peer_map(&peer, 0, GIBIBYTE, 0, 3, file) == 0 && peer_map(&other, 0, GIBIBYTE, 0, 3, file) == 0);
    CHECK(peer_map(&peer, GIBIBYTE, 4096, 0, 3, file) == EFBIG);
    for (unsigned int i = 0; i < 10; i++) { /* even while removed memory is still mapped */
        CHECK(peer_unmap(&peer, 0, GIBIBYTE) == 0);
        CHECK(peer_map(&peer, 0, GIBIBYTE, GIBIBYTE, 3, file) == 0);
    }
    CHECK(peer_map(&peer, GIBIBYTE, 4096, 0, 3, file) == EFBIG);
    close(file);
    peer_close(&peer);
    peer_close(&other);
    server_stop();
}

/* ---- lines ---- */

static bool says(const char *said, const char *line)
{
    return strstr(said, line) != NULL;
}

/* Checks that the lines of one client and kind don't count against another client or another kind. */
static void lines(void)
{
    static char said[1u << 16];
    int ends[2], errors = dup(STDERR_FILENO);
    CHECK(pipe(ends) == 0 && dup2(ends[1], STDERR_FILENO) == STDERR_FILENO);
    close(ends[1]);
    log_open();
    for (unsigned int i = 0; i < 1000; i++)
        log_client(3, LOG_ACCESS, "access %u of 3", i);
    log_client(4, LOG_ACCESS, "access of 4");
    log_client(3, LOG_FAULT, "fault of 3");
    log_line(LOG_ACCESS, "access of nobody");
    log_close();
    CHECK(dup2(errors, STDERR_FILENO) == STDERR_FILENO && close(errors) == 0);
    CHECK(read(ends[0], said, sizeof said - 1) > 0);
    CHECK(says(said, "access 0 of 3\n") && says(said, "access 19 of 3\n") && !says(said, "access 500 of 3\n"));
    CHECK(says(said, "access of 4\n") && says(said, "fault of 3\n") && says(said, "access of nobody\n"));
    CHECK(says(said, " more lines about refused accesses were left out\n"));
    close(ends[0]);
}

int main(int count, char **words)
{
    CHECK(count == 2);
    signal(SIGPIPE, SIG_IGN);
    CHECK(notifier_open() || !kernel_has_reads());
    many_writes(false);
    many_writes(true);
    many_interrupts();
    one_goes();
    long_datagrams(words[1]);
    bytes_of_memory();
    lines();
    printf("turns: passed\n");
    return 0;
}
