/* Measures how long the server takes for a guest's requests, with a client and a server but no guest.

     socket [COUNT]   measures COUNT reads, posted writes and sent frames, several times, and prints the best times */
#define _GNU_SOURCE
#include <stdio.h>
#include <stdlib.h>
#include <string.h>
#include <sys/mman.h>
#include <time.h>
#include <unistd.h>

#include "../../tests/check.h"
#include "nic82599.h"
#include "peer/peer.h"

#define TIMES 5
#define RAM 0x40000000u
#define RAM_BYTES (1u << 20)
#define RING 0x1000u
#define FRAME 0x8000u
#define SLOTS 512u
#define BATCH 32u /* frames handed over by a tail write */

static uint8_t *ram;

static double now(void)
{
    struct timespec time;
    clock_gettime(CLOCK_MONOTONIC, &time);
    return (double)time.tv_sec + (double)time.tv_nsec / 1e9;
}

static void reads(struct peer *it, unsigned long count)
{
    for (unsigned long i = 0; i < count; i++)
        peer_read(it, NIC_STATUS);
}

/* Posts writes, and waits until all have arrived: a read after them is answered last. */
static void writes(struct peer *it, unsigned long count)
{
    for (unsigned long i = 0; i < count; i++)
        peer_write(it, NIC_EIMC, 0);
    peer_read(it, NIC_STATUS);
}

static void put64(uint32_t at, uint64_t value)
{
    memcpy(ram + at, &value, sizeof value);
}

static void start_queue(struct peer *it)
{
    int file = memfd_create("ram", MFD_CLOEXEC);
    CHECK(ftruncate(file, RAM_BYTES) == 0);
    ram = mmap(NULL, RAM_BYTES, PROT_READ | PROT_WRITE, MAP_SHARED, file, 0);
    CHECK(ram != MAP_FAILED && peer_map(it, RAM, RAM_BYTES, 0, 3, file) == 0);
    peer_write(it, NIC_TDBAL(0), RAM + RING);
    peer_write(it, NIC_TDLEN(0), SLOTS * 16);
    peer_write(it, NIC_DMATXCTL, NIC_DMATXCTL_TE);
    peer_write(it, NIC_TXDCTL(0), NIC_TXDCTL_ENABLE);
}

static void fill_ring(uint64_t bytes)
{
    for (uint32_t slot = 0; slot < SLOTS; slot++) {
        put64(RING + 16 * slot, RAM + FRAME);
        put64(RING + 16 * slot + 8, NIC_TXD_DATA | NIC_TXD_EOP | NIC_TXD_RS | NIC_TXD_DTALEN_IS(bytes));
    }
}

/* Waits for each batch with a read: when the read is answered, the batch's frames have been sent. */
static void frames(struct peer *it, unsigned long count)
{
    static uint32_t tail;
    for (unsigned long i = 0; i < count; i += BATCH) {
        tail = (tail + BATCH) % SLOTS;
        peer_write(it, NIC_TDT(0), tail);
        CHECK(peer_read(it, NIC_TDH(0)) == tail);
    }
}

static double best(struct peer *it, unsigned long count, void (*accesses)(struct peer *it, unsigned long count))
{
    double least = 0;
    for (int i = 0; i < TIMES; i++) {
        double began = now();
        accesses(it, count);
        double took = (now() - began) / (double)count;
        least = i == 0 || took < least ? took : least;
    }
    return least * 1e6;
}

int main(int count, char **words)
{
    static const char *const server_words[] = {"--quiet", "--wire=none", NULL};
    unsigned long many = count > 1 ? strtoul(words[1], NULL, 10) : 20000;
    struct peer peer;
    const char *path = server_start(server_words);
    peer_open(&peer, path);
    CHECK(many && peer_version(&peer) == 0);
    start_queue(&peer);
    printf("socket: read %.2f us", best(&peer, many, reads));
    printf(", posted write %.2f us", best(&peer, many, writes));
    for (unsigned int bytes = 60; bytes < 2000; bytes += 1454) {
        fill_ring(bytes);
        printf(", %u-byte frame out %.2f us", bytes, best(&peer, many, frames));
    }
    putchar('\n');
    peer_close(&peer);
    server_stop();
    return 0;
}
