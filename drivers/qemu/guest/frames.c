/* Runs in a guest: sends frames computed from their numbers (c/bus/frames.h), or receives and compares them.

     frames send INTERFACE COUNT MOST            numbers 1 to COUNT, of 60 to MOST bytes, to 02:00:00:00:00:01
     frames receive INTERFACE COUNT MOST SECONDS receives these from 02:00:00:00:00:01, for at most SECONDS

   It prints how many were correct. Status 0: all were. */
#define _GNU_SOURCE
#include <arpa/inet.h>
#include <errno.h>
#include <linux/if_packet.h>
#include <net/ethernet.h>
#include <net/if.h>
#include <stdio.h>
#include <stdlib.h>
#include <string.h>
#include <sys/ioctl.h>
#include <sys/socket.h>
#include <sys/time.h>
#include <time.h>
#include <unistd.h>

#include "frames.h"
#include "numbered.h"

#define RECEIVE_BYTES (64 << 20)
#define ROOM 16384

static const uint8_t peer[6] = {0x02, 0x00, 0x00, 0x00, 0x00, 0x01};

struct interface {
    int file;
    uint8_t mac[6];
};

static double now(void)
{
    struct timespec time;
    clock_gettime(CLOCK_MONOTONIC, &time);
    return (double)time.tv_sec + (double)time.tv_nsec / 1e9;
}

static bool open_interface(struct interface *it, const char *name)
{
    struct ifreq ask;
    int bytes = RECEIVE_BYTES;
    it->file = socket(AF_PACKET, SOCK_RAW, htons(ETH_P_ALL));
    memset(&ask, 0, sizeof ask);
    snprintf(ask.ifr_name, sizeof ask.ifr_name, "%s", name);
    if (it->file < 0 || ioctl(it->file, SIOCGIFHWADDR, &ask) != 0)
        return false;
    memcpy(it->mac, ask.ifr_hwaddr.sa_data, sizeof it->mac);
    setsockopt(it->file, SOL_SOCKET, SO_RCVBUFFORCE, &bytes, sizeof bytes);
    struct sockaddr_ll at = {
        .sll_family = AF_PACKET, .sll_protocol = htons(ETH_P_ALL), .sll_ifindex = (int)if_nametoindex(name)};
    return bind(it->file, (const struct sockaddr *)&at, sizeof at) == 0;
}

/* Frames, each preceded by its length. All of them are built before the first is sent, or compared after the last has
   arrived, so neither affects the timing. */
struct store {
    uint8_t *bytes;
    size_t room, end;
    unsigned int count;
    double first, last; /* arrival times */
};

static bool open_store(struct store *it, unsigned int count, unsigned int most)
{
    *it = (struct store){.room = (size_t)count * (most + sizeof(uint32_t)) + ROOM};
    it->bytes = malloc(it->room);
    if (it->bytes)
        memset(it->bytes, 0, it->room);
    return it->bytes != NULL;
}

/* Returns the frame at `at`, and its length; advances `at`. */
static const uint8_t *next_of(const struct store *it, size_t *at, uint32_t *length)
{
    const uint8_t *bytes = it->bytes + *at + sizeof *length;
    memcpy(length, it->bytes + *at, sizeof *length);
    *at += sizeof *length + *length;
    return bytes;
}

/* Adds the frame whose bytes were written right after the last frame. */
static void add_to(struct store *it, uint32_t length)
{
    memcpy(it->bytes + it->end, &length, sizeof length);
    it->end += sizeof length + length;
    it->count++;
}

static bool send_one(const struct interface *it, const uint8_t *bytes, size_t length)
{
    while (send(it->file, bytes, length, 0) < 0) {
        if (errno != ENOBUFS && errno != EAGAIN)
            return false;
        usleep(500);
    }
    return true;
}

static int send_frames(const struct interface *it, unsigned int count, unsigned int most)
{
    static struct frame frame;
    struct store store;
    uint32_t length;
    if (!open_store(&store, count, most))
        return 2;
    for (unsigned int number = 1; number <= count; number++) {
        frame_make(&frame, number, (uint16_t)most, peer, it->mac);
        memcpy(store.bytes + store.end + sizeof length, frame.bytes, frame.length);
        add_to(&store, frame.length);
    }
    double began = now();
    for (size_t at = 0; at < store.end;) {
        const uint8_t *bytes = next_of(&store, &at, &length);
        if (!send_one(it, bytes, length))
            return 1;
    }
    printf("frames: sent %u frames of at most %u bytes in %.3f s\n", count, most, now() - began);
    free(store.bytes);
    return 0;
}

/* Receives one frame if it comes from the peer. */
static void take(const struct interface *it, struct store *store)
{
    struct sockaddr_ll from = {0};
    socklen_t length = sizeof from;
    uint8_t *to = store->bytes + store->end + sizeof(uint32_t);
    ssize_t got = recvfrom(it->file, to, ROOM - sizeof(uint32_t), 0, (struct sockaddr *)&from, &length);
    if (got <= 0 || from.sll_pkttype == PACKET_OUTGOING || memcmp(to + 6, peer, 6) != 0)
        return;
    store->last = now();
    if (store->count == 0)
        store->first = store->last;
    add_to(store, (uint32_t)got);
}

static int receive_frames(const struct interface *it, unsigned int count, unsigned int most, unsigned int seconds)
{
    struct numbered numbered;
    struct timeval patience = {.tv_usec = 100000};
    struct store store;
    uint32_t length;
    if (!open_store(&store, count, most) || !numbered_begin(&numbered, count, (uint16_t)most, it->mac, peer))
        return 2;
    setsockopt(it->file, SOL_SOCKET, SO_RCVTIMEO, &patience, sizeof patience);
    printf("frames: ready\n");
    double end = now() + seconds;
    while (store.count < count && now() < end && store.end + ROOM <= store.room)
        take(it, &store);
    for (size_t at = 0; at < store.end;) {
        const uint8_t *bytes = next_of(&store, &at, &length);
        numbered_take(&numbered, bytes, length);
    }
    printf("frames: received %u of %u frames of at most %u bytes in %.3f s, twice %u, wrong %u\n", numbered.good, count,
           most, store.last - store.first, numbered.twice, numbered.wrong);
    free(store.bytes);
    return numbered.good == count && !numbered.twice && !numbered.wrong ? 0 : 1;
}

int main(int count, char **words)
{
    struct interface interface;
    setvbuf(stdout, NULL, _IOLBF, 0);
    if (count < 5 || !open_interface(&interface, words[2])) {
        fprintf(stderr, "frames: arguments are missing, or the interface can't be opened: %s\n", strerror(errno));
        return 2;
    }
    unsigned int many = (unsigned int)atoi(words[3]), most = (unsigned int)atoi(words[4]);
    if (most < FRAME_MIN || most > FRAME_JUMBO)
        return 2;
    if (strcmp(words[1], "send") == 0)
        return send_frames(&interface, many, most);
    return receive_frames(&interface, many, most, count > 5 ? (unsigned int)atoi(words[5]) : 10);
}
