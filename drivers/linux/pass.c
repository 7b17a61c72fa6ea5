#define _GNU_SOURCE
#include "pass.h"

#include <arpa/inet.h>
#include <errno.h>
#include <fcntl.h>
#include <linux/if_packet.h>
#include <poll.h>
#include <stdio.h>
#include <string.h>
#include <sys/socket.h>
#include <unistd.h>

#include "frames.h"
#include "verdict.h"

#define CONFIG "/sys/bus/pci/devices/0000:00:00.0/config"
#define BATCH 200 /* frames that fit in the guest's socket; each has a different length */
#define WAIT 3000 /* milliseconds to wait for a frame, on the guest's clock, which skips waits */
#define FIRST_OUT 0
#define FIRST_IN 100000
#define DATAGRAM_MOST 1472
#define ECHO_PORT 7
#define ADDRESS "10.0.0.1"
#define PEER_ADDRESS "10.0.0.2"
#define FILTER_WAIT 200
#define RESET_SECONDS 20 /* seconds until the driver finds its queue hung and resets the card, on the guest's clock */

static int config;
static const uint8_t peer_mac[6] = PEER_MAC;

/* ---- orders ---- */

bool pass_begin(void)
{
    config = open(CONFIG, O_RDWR);
    if (config < 0)
        problem("%s: %s", CONFIG, strerror(errno));
    return config >= 0;
}

static void put_word(unsigned int at, uint32_t word)
{
    if (pwrite(config, &word, sizeof word, at) != sizeof word)
        problem("can't write an order: %s", strerror(errno));
}

static uint32_t get_word(unsigned int at)
{
    uint32_t word = 0;
    if (pread(config, &word, sizeof word, at) != sizeof word)
        problem("can't read a result: %s", strerror(errno));
    return word;
}

static void put_mac(const uint8_t mac[6], unsigned int function)
{
    uint32_t words[2];
    uint8_t bytes[8];
    memcpy(bytes, mac, 6);
    bytes[6] = (uint8_t)function;
    bytes[7] = 0;
    memcpy(words, bytes, sizeof words);
    put_word(ORDER_MAC, words[0]);
    put_word(ORDER_MAC + 4, words[1]);
}

uint32_t order(enum order what, uint32_t count)
{
    put_word(ORDER_COUNT, count);
    put_word(ORDER_WHAT, what);
    return get_word(ORDER_RESULT);
}

uint32_t order_of(enum order what, unsigned int function)
{
    put_mac(peer_mac, function);
    return order(what, 0);
}

static void order_frames(enum order what, const struct interface *it, uint32_t first, uint32_t count, unsigned int most)
{
    put_word(ORDER_FIRST, first);
    put_word(ORDER_MOST, most);
    put_mac(it->mac, it->function);
    order(what, count);
}

bool order_one(const uint8_t to[6], uint32_t number)
{
    put_word(ORDER_FIRST, number);
    put_word(ORDER_MOST, FRAME_MAX);
    put_mac(to, 0);
    return order(ORDER_ONE, 1) != 0;
}

void order_verdict(uint32_t wrong, uint32_t compared_things)
{
    put_word(ORDER_FIRST, compared_things);
    order(ORDER_VERDICT, wrong);
}

/* ---- out ---- */

static unsigned int out_batch(int socket, const struct interface *it, uint32_t first, unsigned int count,
                              unsigned int most)
{
    order_frames(ORDER_EXPECT, it, first, count, most);
    for (unsigned int i = 0; i < count; i++) {
        struct frame frame;
        frame_make(&frame, first + i, (uint16_t)most, peer_mac, it->mac);
        if (send(socket, frame.bytes, frame.length, 0) != frame.length)
            problem("%s: frame %u wasn't sent: %s", it->name, first + i, strerror(errno));
    }
    uint32_t alike = order(ORDER_SENT, 0);
    equal("frames that the card sent, and frames that the guest sent", get_word(ORDER_RESULT_2), count);
    return alike;
}

static unsigned int out(int socket, const struct interface *it, unsigned int count, unsigned int most)
{
    unsigned int alike = 0;
    for (unsigned int done = 0; done < count; done += BATCH)
        alike += out_batch(socket, it, FIRST_OUT + done, count - done < BATCH ? count - done : BATCH, most);
    return alike;
}

/* ---- in ---- */

struct batch {
    uint32_t first;
    unsigned int count, most;
    unsigned int came, alike, ordered; /* ordered: frames received in order */
    bool has[BATCH];
};

static struct frame made[BATCH]; /* the frames of a batch */

/* Finds the batch's frame with these bytes among those not yet received. Returns its index, or `count` if there is
   none. */
static unsigned int find(const struct batch *batch, const uint8_t *bytes, size_t length)
{
    for (unsigned int i = 0; i < batch->count; i++)
        if (!batch->has[i] && frame_is(&made[i], bytes, length))
            return i;
    return batch->count;
}

static void take(struct batch *batch, const struct interface *it, const uint8_t *bytes, size_t length)
{
    unsigned int i = find(batch, bytes, length);
    batch->came++;
    if (i == batch->count) {
        problem("%s: a %zu-byte frame arrived that isn't one of frames %u to %u", it->name, length, batch->first,
                batch->first + batch->count - 1);
        return;
    }
    batch->ordered += i == batch->alike;
    batch->alike++;
    batch->has[i] = true;
}

static void empty(int socket)
{
    uint8_t bytes[1];
    while (recv(socket, bytes, sizeof bytes, MSG_DONTWAIT) >= 0)
        ;
}

static void in_batch(int socket, const struct interface *it, struct batch *batch)
{
    static uint8_t bytes[FRAME_JUMBO + 1];
    for (unsigned int i = 0; i < batch->count; i++)
        frame_make(&made[i], batch->first + i, (uint16_t)batch->most, it->mac, peer_mac);
    empty(socket);
    order_frames(ORDER_SEND, it, batch->first, batch->count, batch->most);
    while (batch->came < batch->count) {
        struct pollfd file = {.fd = socket, .events = POLLIN};
        if (poll(&file, 1, WAIT) <= 0)
            break;
        ssize_t length = recv(socket, bytes, sizeof bytes, 0);
        if (length >= FRAME_MIN)
            take(batch, it, bytes, (size_t)length);
    }
}

static unsigned int in(int socket, const struct interface *it, unsigned int count, unsigned int most,
                       unsigned int *ordered)
{
    unsigned int alike = 0;
    *ordered = 0;
    for (unsigned int done = 0; done < count; done += BATCH) {
        struct batch batch = {
            .first = FIRST_IN + done, .count = count - done < BATCH ? count - done : BATCH, .most = most};
        in_batch(socket, it, &batch);
        alike += batch.alike;
        *ordered += batch.ordered;
    }
    return alike;
}

static void check_socket(int socket)
{
    struct tpacket_stats counts = {0};
    socklen_t size = sizeof counts;
    getsockopt(socket, SOL_PACKET, PACKET_STATISTICS, &counts, &size);
    equal("frames that the guest's socket lost", counts.tp_drops, 0);
}

/* ---- both ways ---- */

struct counters {
    uint64_t in, out, interrupts, messages;
};

static struct counters counters_of(const struct interface *it)
{
    return (struct counters){.in = interface_statistic(it, "rx_packets"),
                             .out = interface_statistic(it, "tx_packets"),
                             .interrupts = interface_interrupts(it),
                             .messages = order_of(ORDER_MESSAGES, it->function)};
}

void pass(const struct interface *it, unsigned int count, unsigned int most, unsigned int queues)
{
    int file = interface_socket(it);
    unsigned int ordered;
    struct counters before = counters_of(it);
    unsigned int sent = out(file, it, count, most);
    unsigned int got = in(file, it, count, most, &ordered);
    struct counters after = counters_of(it);
    equal("correct frames out, and frames sent", sent, count);
    equal("correct frames in, and frames sent", got, count);
    if (queues == 1)
        equal("frames that arrived in order, and all frames", ordered, count);
    equal("frames in according to the driver, and to the run", after.in - before.in, count);
    equal("frames out according to the driver, and to the run", after.out - before.out, count);
    equal("interrupts that the kernel counts, and messages sent", after.interrupts - before.interrupts,
          after.messages - before.messages);
    check_socket(file);
    close(file);
    printf("guest: %s: out %u of %u frames correct, byte by byte; in %u of %u%s; %u interrupts\n", it->name, sent,
           count, got, count, queues == 1 && ordered == count ? ", in order" : "",
           (unsigned int)(after.interrupts - before.interrupts));
}

/* ---- the kernel's stack ---- */

static int open_datagrams(const struct interface *it)
{
    struct sockaddr_in peer = {.sin_family = AF_INET, .sin_port = htons(ECHO_PORT)};
    int file = socket(AF_INET, SOCK_DGRAM, 0);
    inet_aton(PEER_ADDRESS, &peer.sin_addr);
    interface_set_address(it, ADDRESS, PEER_ADDRESS, peer_mac);
    if (connect(file, (struct sockaddr *)&peer, sizeof peer) != 0)
        problem("%s: no route to the peer: %s", it->name, strerror(errno));
    return file;
}

static void close_datagrams(const struct interface *it, int file)
{
    close(file);
    interface_set_address(it, NULL, NULL, NULL);
}

static bool goes_and_comes(int socket, unsigned int number)
{
    uint8_t out_bytes[DATAGRAM_MOST], in_bytes[DATAGRAM_MOST + 1];
    size_t length = 1 + number * 97u % DATAGRAM_MOST;
    struct pollfd file = {.fd = socket, .events = POLLIN};
    for (size_t i = 0; i < length; i++)
        out_bytes[i] = (uint8_t)(number * 31u + i * 7u + (i >> 8));
    if (send(socket, out_bytes, length, 0) != (ssize_t)length || poll(&file, 1, WAIT) <= 0)
        return false;
    return recv(socket, in_bytes, sizeof in_bytes, 0) == (ssize_t)length && memcmp(in_bytes, out_bytes, length) == 0;
}

void pass_datagrams(const struct interface *it, unsigned int count)
{
    unsigned int alike = 0;
    uint32_t before = order(ORDER_ECHOES, 0);
    int file = open_datagrams(it);
    for (unsigned int i = 0; i < count; i++)
        alike += goes_and_comes(file, i);
    close_datagrams(it, file);
    equal("datagrams returned unchanged, and sent", alike, count);
    equal("datagrams that the peer returned, and datagrams sent", order(ORDER_ECHOES, 0) - before, count);
    printf("guest: %s: %u of %u UDP datagrams through the kernel's stack came back unchanged\n", it->name, alike,
           count);
}

void pass_offloaded(const struct interface *it, unsigned int count)
{
    uint32_t echoes = order(ORDER_ECHOES, 0), faults = order(ORDER_FAULTS, count);
    int file = open_datagrams(it);
    for (unsigned int i = 0; i < count; i++) {
        equal("datagrams with an offload that came back, none expected", goes_and_comes(file, i), false);
        sleep(RESET_SECONDS);
    }
    close_datagrams(it, file);
    equal("datagrams that were sent, none expected", order(ORDER_ECHOES, 0) - echoes, 0);
    equal("faults, and datagrams", order(ORDER_FAULTS, count) - faults, count);
    printf("guest: %s: %u UDP datagrams through the kernel's stack with the driver's offloads: each causes a fault\n",
           it->name, count);
}

/* ---- filters ---- */

enum { OWN, OTHER, GROUP, OTHER_GROUP, EVERYBODY, DESTINATIONS };

static const uint8_t other_mac[6] = {0x02, 0x00, 0x00, 0x00, 0x82, 0x55};
static const uint8_t group_mac[6] = {0x01, 0x00, 0x5e, 0x01, 0x02, 0x03};
static const uint8_t other_group_mac[6] = {0x01, 0x00, 0x5e, 0x11, 0x22, 0x33};
static const uint8_t everybody_mac[6] = {0xff, 0xff, 0xff, 0xff, 0xff, 0xff};

/* The membership that a socket requests, and the destinations of the frames that it should then receive: own, other,
   group, other group, broadcast. */
static const struct {
    const char *what;
    int kind; /* kind of membership; -1 for none */
    const uint8_t *address;
    bool comes[DESTINATIONS];
} filters[] = {
    {"initially", -1, NULL, {true, false, false, false, true}},
    {"promiscuous", PACKET_MR_PROMISC, other_mac, {true, true, true, true, true}},
    {"promiscuous off", -1, NULL, {true, false, false, false, true}},
    {"all multicast", PACKET_MR_ALLMULTI, group_mac, {true, false, true, true, true}},
    {"all multicast off", -1, NULL, {true, false, false, false, true}},
    {"a second address", PACKET_MR_UNICAST, other_mac, {true, true, false, false, true}},
    {"address removed", -1, NULL, {true, false, false, false, true}},
    {"a multicast address", PACKET_MR_MULTICAST, group_mac, {true, false, true, false, true}},
    {"address removed", -1, NULL, {true, false, false, false, true}},
};

/* Sends one frame, and returns whether it reaches the socket. */
static bool comes_in(int socket, const uint8_t to[6], uint32_t number)
{
    struct pollfd file = {.fd = socket, .events = POLLIN};
    empty(socket);
    bool is_written = order_one(to, number);
    bool has_come = poll(&file, 1, FILTER_WAIT) > 0;
    equal("frames that the device wrote, and frames that arrived", is_written, has_come);
    return has_come;
}

void pass_filters(const struct interface *it)
{
    static const struct {
        const char *name;
        int width;
    } columns[DESTINATIONS] = {{"own", 4}, {"other", 6}, {"multicast", 10}, {"other", 6}, {"broadcast", 0}};
    const uint8_t *const to[DESTINATIONS] = {it->mac, other_mac, group_mac, other_group_mac, everybody_mac};
    printf("guest:   %-20s", "frames to");
    for (unsigned int k = 0; k < DESTINATIONS; k++)
        printf(" %-*s", columns[k].width, columns[k].name);
    printf("\n");
    for (unsigned int i = 0; i < sizeof filters / sizeof *filters; i++) {
        int file = interface_socket(it);
        struct packet_mreq request = {.mr_ifindex = (int)if_nametoindex(it->name), .mr_alen = 6};
        printf("guest:   %-20s", filters[i].what);
        if (filters[i].kind >= 0) {
            request.mr_type = (unsigned short)filters[i].kind;
            memcpy(request.mr_address, filters[i].address, 6);
            if (setsockopt(file, SOL_PACKET, PACKET_ADD_MEMBERSHIP, &request, sizeof request) != 0)
                problem("%s: the kernel refused the membership: %s", it->name, strerror(errno));
        }
        for (unsigned int k = 0; k < DESTINATIONS; k++) {
            bool comes = comes_in(file, to[k], 7 * k);
            equal(filters[i].what, comes, filters[i].comes[k]);
            printf(" %-*s", columns[k].width, comes ? "in" : "-");
        }
        printf("\n");
        close(file);
    }
}
