/* A program written without any search in mind: a forwarder with a receiver and two senders, on POSIX threads with its
   own locks, conditions and atomics. It sends each frame back to its sender. Run by itself, it prints how many frames
   arrived and were sent. Linked as docs/explore.md says, the same file is searched. Without -DFIXED it has a bug, which
   rarely shows when it runs by itself. */
#include <pthread.h>
#include <sched.h>
#include <stdatomic.h>
#include <stdbool.h>
#include <stdio.h>
#include <stdlib.h>
#include <string.h>

#include "nic82599.h"

enum {
    SLOTS = 8,        /* slots of a ring; the device never owns all of them */
    RX_RING = 0x0800, /* block 1 */
    TX_RING = 0x0880,
    BUFFERS = 0x1000, /* one block each, starting with block 2: for the receive ring, then for the transmit ring */
    BLOCKS = 2 + 2 * SLOTS,
    QUEUED = 4, /* maximum number of frames waiting between receiver and senders */
    SENDERS = 2,
    LENGTH = 60,
    CAUSE = 1 << 5, /* cause of receive queue 0, with vector 0 */
    USUAL_FRAMES = 3
};

struct packet {
    uint16_t length;
    uint8_t bytes[LENGTH];
};

/* --- the card: a handle isn't thread-safe, so each call on it holds a lock --- */

static nic card;
static pthread_mutex_t card_lock = PTHREAD_MUTEX_INITIALIZER;

static uint32_t read_register(uint32_t address)
{
    pthread_mutex_lock(&card_lock);
    uint32_t word = nic_get(&card, address);
    pthread_mutex_unlock(&card_lock);
    return word;
}

static void write_register(uint32_t address, uint32_t word)
{
    pthread_mutex_lock(&card_lock);
    nic_write32(&card, address, word);
    pthread_mutex_unlock(&card_lock);
}

static nic_desc get_descriptor(uint64_t ring, unsigned slot)
{
    nic_desc descriptor;
    pthread_mutex_lock(&card_lock);
    nic_get_desc(&card, ring, slot, &descriptor);
    pthread_mutex_unlock(&card_lock);
    return descriptor;
}

static void put_descriptor(uint64_t ring, unsigned slot, nic_desc descriptor)
{
    pthread_mutex_lock(&card_lock);
    nic_put_desc(&card, ring, slot, descriptor);
    pthread_mutex_unlock(&card_lock);
}

static uint64_t rx_buffer(unsigned slot)
{
    return BUFFERS + NIC_BLOCK_BYTES * (uint64_t)slot;
}

static uint64_t tx_buffer(unsigned slot)
{
    return rx_buffer(SLOTS + slot);
}

/* --- interrupts: a message wakes the receiver --- */

static struct {
    pthread_mutex_t lock;
    pthread_cond_t raised;
    bool is_pending;
} interrupt = {PTHREAD_MUTEX_INITIALIZER, PTHREAD_COND_INITIALIZER, false};

static atomic_bool is_over;

static void raise_interrupt(void)
{
    pthread_mutex_lock(&interrupt.lock);
    interrupt.is_pending = true;
    pthread_cond_signal(&interrupt.raised);
    pthread_mutex_unlock(&interrupt.lock);
}

/* Waits for a message. Returns false if the program is ending. */
static bool wait_for_interrupt(void)
{
    pthread_mutex_lock(&interrupt.lock);
    while (!interrupt.is_pending && !atomic_load(&is_over))
        pthread_cond_wait(&interrupt.raised, &interrupt.lock);
    interrupt.is_pending = false;
    pthread_mutex_unlock(&interrupt.lock);
    return !atomic_load(&is_over);
}

/* --- the queue between the receiver and the senders --- */

static struct {
    pthread_mutex_t lock;
    pthread_cond_t came, went;
    struct packet packets[QUEUED];
    unsigned first, count;
} queue = {PTHREAD_MUTEX_INITIALIZER, PTHREAD_COND_INITIALIZER, PTHREAD_COND_INITIALIZER, {{0, {0}}}, 0, 0};

static void push(const struct packet *packet)
{
    pthread_mutex_lock(&queue.lock);
    while (queue.count == QUEUED)
        pthread_cond_wait(&queue.went, &queue.lock);
    queue.packets[(queue.first + queue.count++) % QUEUED] = *packet;
    pthread_cond_signal(&queue.came);
    pthread_mutex_unlock(&queue.lock);
}

/* Waits for a packet. Returns false if the program is ending and no packet is left. */
static bool pop(struct packet *packet)
{
    pthread_mutex_lock(&queue.lock);
    while (!queue.count && !atomic_load(&is_over))
        pthread_cond_wait(&queue.came, &queue.lock);
    bool any = queue.count != 0;
    if (any) {
        *packet = queue.packets[queue.first];
        queue.first = (queue.first + 1) % QUEUED;
        queue.count--;
        pthread_cond_signal(&queue.went);
    }
    pthread_mutex_unlock(&queue.lock);
    return any;
}

/* --- the receiver --- */

static atomic_uint received;

static void take_packets(unsigned *next)
{
    nic_desc descriptor = get_descriptor(RX_RING, *next);
    while (nic_rx_is_done(descriptor)) {
        struct packet packet = {nic_rx_length(descriptor), {0}};
        pthread_mutex_lock(&card_lock);
        nic_dma_read(&card, rx_buffer(*next), packet.bytes, LENGTH);
        pthread_mutex_unlock(&card_lock);
        put_descriptor(RX_RING, *next, nic_rx_desc(rx_buffer(*next)));
        write_register(NIC_RDT(0), *next);
        atomic_fetch_add(&received, 1);
        push(&packet);
        *next = (*next + 1) % SLOTS;
        descriptor = get_descriptor(RX_RING, *next);
    }
}

static void *receive(void *unused)
{
    unsigned next = 0;
    (void)unused;
    while (wait_for_interrupt()) {
        write_register(NIC_EICR, CAUSE);
        write_register(NIC_EIMS, CAUSE);
        take_packets(&next);
    }
    return NULL;
}

/* --- the senders --- */

static struct {
    unsigned tail;
    pthread_mutex_t lock;
} transmit = {0, PTHREAD_MUTEX_INITIALIZER};

static struct {
    pthread_mutex_t lock;
    pthread_cond_t changed;
    unsigned count;
} sent = {PTHREAD_MUTEX_INITIALIZER, PTHREAD_COND_INITIALIZER, 0};

/* Swaps the frame's addresses, so that it returns to its sender. */
static void turn_around(struct packet *packet)
{
    uint8_t address[6];
    memcpy(address, packet->bytes, 6);
    memcpy(packet->bytes, packet->bytes + 6, 6);
    memcpy(packet->bytes + 6, address, 6);
}

static void lock_ring(void)
{
#ifdef FIXED
    pthread_mutex_lock(&transmit.lock);
#endif
}

static void unlock_ring(void)
{
#ifdef FIXED
    pthread_mutex_unlock(&transmit.lock);
#endif
}

/* Returns the slot that the frame is sent from. */
static unsigned send_packet(const struct packet *packet)
{
    lock_ring();
    unsigned slot = transmit.tail;
    pthread_mutex_lock(&card_lock);
    nic_dma_write(&card, tx_buffer(slot), packet->bytes, packet->length);
    pthread_mutex_unlock(&card_lock);
    put_descriptor(
        TX_RING, slot,
        nic_tx_desc(tx_buffer(slot), packet->length, packet->length, NIC_TXD_EOP | NIC_TXD_IFCS | NIC_TXD_RS));
    transmit.tail = (slot + 1) % SLOTS;
    write_register(NIC_TDT(0), transmit.tail);
    unlock_ring();
    return slot;
}

static void *send_all(void *unused)
{
    struct packet packet;
    (void)unused;
    while (pop(&packet)) {
        turn_around(&packet);
        unsigned slot = send_packet(&packet);
        while (!nic_tx_is_done(get_descriptor(TX_RING, slot)))
            sched_yield();
        pthread_mutex_lock(&sent.lock);
        sent.count++;
        pthread_cond_signal(&sent.changed);
        pthread_mutex_unlock(&sent.lock);
    }
    return NULL;
}

/* --- the bench: runs the device's steps, and puts frames on the link --- */

static void *act(void *unused)
{
    nic_settling where = {1, 0};
    (void)unused;
    while (!atomic_load(&is_over)) {
        nic_outcome outcome;
        pthread_mutex_lock(&card_lock);
        uint8_t status = nic_next_step(&card, &where, &outcome);
        pthread_mutex_unlock(&card_lock);
        if (status == NIC_DONE)
            sched_yield();
        else if (outcome.status == NIC_MESSAGE)
            raise_interrupt();
    }
    return NULL;
}

static void bring_up(void)
{
    nic_outcome outcomes[16];
    size_t count;
    nic_lend_all(&card);
    nic_write32(&card, NIC_RXCTRL, NIC_RXCTRL_RXEN);
    nic_write32(&card, NIC_FCTRL, NIC_FCTRL_UPE);
    nic_write32(&card, NIC_DMATXCTL, NIC_DMATXCTL_TE);
    nic_write32(&card, NIC_RDBAL(0), RX_RING);
    nic_write32(&card, NIC_RDLEN(0), NIC_DESC_BYTES * SLOTS);
    nic_write32(&card, NIC_SRRCTL(0), NIC_SRRCTL_DESCTYPE_IS(1) | NIC_SRRCTL_BSIZEPACKET_IS(2));
    nic_write32(&card, NIC_TDBAL(0), TX_RING);
    nic_write32(&card, NIC_TDLEN(0), NIC_DESC_BYTES * SLOTS);
    nic_write32(&card, NIC_RXDCTL(0), NIC_RXDCTL_ENABLE);
    nic_write32(&card, NIC_TXDCTL(0), NIC_TXDCTL_ENABLE);
    nic_settle(&card, 1, outcomes, 16, &count);
    for (unsigned slot = 0; slot + 1 < SLOTS; slot++)
        nic_put_desc(&card, RX_RING, slot, nic_rx_desc(rx_buffer(slot)));
    nic_write32(&card, NIC_RDT(0), SLOTS - 1);
    nic_write32(&card, NIC_GPIE, NIC_GPIE_MULTIPLE_MSIX);
    nic_write32(&card, NIC_IVAR(0), NIC_IVAR_INT_ALLOC_0_IS(5) | NIC_IVAR_INT_ALLOC_VAL_0);
    nic_write32(&card, NIC_EIMS, CAUSE);
}

static void frames_come(unsigned count)
{
    uint8_t frame[LENGTH] = {2, 0, 0, 0, 0, 1, 2, 0, 0, 0, 0, 2, 0x88, 0xB5};
    for (unsigned k = 0; k < count; k++) {
        nic_outcome outcome;
        frame[LENGTH - 1] = (uint8_t)k;
        pthread_mutex_lock(&card_lock);
        nic_arrive(&card, frame, LENGTH, &outcome);
        pthread_mutex_unlock(&card_lock);
    }
}

/* Returns the number of distinct frames that went out. */
static unsigned collected(void)
{
    uint8_t frame[LENGTH];
    bool seen[256] = {false};
    unsigned count = 0;
    nic_outcome outcome;
    while (nic_collect(&card, frame, LENGTH, &outcome) == NIC_FRAME) {
        count += !seen[frame[LENGTH - 1]];
        seen[frame[LENGTH - 1]] = true;
    }
    return count;
}

/* --- the program --- */

static void wait_until_sent(unsigned count)
{
    pthread_mutex_lock(&sent.lock);
    while (sent.count < count)
        pthread_cond_wait(&sent.changed, &sent.lock);
    pthread_mutex_unlock(&sent.lock);
}

static void stop(pthread_t *threads, unsigned count)
{
    atomic_store(&is_over, true);
    pthread_mutex_lock(&interrupt.lock);
    pthread_cond_broadcast(&interrupt.raised);
    pthread_mutex_unlock(&interrupt.lock);
    pthread_mutex_lock(&queue.lock);
    pthread_cond_broadcast(&queue.came);
    pthread_mutex_unlock(&queue.lock);
    for (unsigned k = 0; k < count; k++)
        pthread_join(threads[k], NULL);
}

int main(int argc, char **argv)
{
    unsigned frames = argc > 1 ? (unsigned)atoi(argv[1]) : USUAL_FRAMES;
    pthread_t threads[2 + SENDERS];
    if (nic_open(&card, 0, 64, BLOCKS) != NIC_DONE)
        return 2;
    bring_up();
    pthread_create(&threads[0], NULL, act, NULL);
    pthread_create(&threads[1], NULL, receive, NULL);
    for (unsigned k = 0; k < SENDERS; k++)
        pthread_create(&threads[2 + k], NULL, send_all, NULL);
    frames_come(frames);
    wait_until_sent(frames);
    stop(threads, 2 + SENDERS);
    unsigned count = collected();
    printf("%u frames received, %u sent; TDH %u\n", atomic_load(&received), count, read_register(NIC_TDH(0)));
    nic_close(&card);
    return count == frames ? 0 : 1;
}
