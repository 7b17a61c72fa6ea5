/* The only file between driver.c and the bench. Called directly, the program runs the driver: 10,000 frames, or as many
   as its argument says, are received and sent back, and each byte is compared. Called by nicdrive, it gives the driver
   to the report card. In both cases the driver accesses its own memory through pointers, and the device uses it in
   place. */
#include <stdio.h>
#include <stdlib.h>
#include <string.h>

#include "driver.h"
#include "nic82599_drive.h"
#include "os.h"

enum { BLOCKS = 4096, PIECES = 8, SLOTS = 64, FRAMES = 10000, BURST = 7, VECTORS = 16 };

static bool is_card; /* called by the report card; if false, the program runs the driver on `n` */
static nic n;

/* --- the device of a run: it acts when the driver waits, and when the run requests it --- */

static bool was_raised[VECTORS]; /* a message of this vector arrived */

static void let_device_act(void)
{
    nic_settling where = {1, 0}; /* a round of one queue */
    nic_outcome outcome;
    while (nic_next_step(&n, &where, &outcome) == NIC_MORE) {
        if (outcome.status == NIC_MESSAGE)
            was_raised[outcome.vector] = true;
        if (outcome.status == NIC_FAULT)
            printf("fault in queue %u: %s\n", outcome.queue, nic_fault_name(outcome.why));
        if (outcome.status == NIC_DROPPED)
            printf("a frame is dropped: %s\n", nic_why_name(outcome.why));
    }
}

/* --- registers --- */

/* Reading a register twice in a row counts as polling. */
uint32_t os_read32(uint32_t offset)
{
    static uint32_t last = UINT32_MAX;
    if (is_card)
        return nicx_read32(offset);
    if (offset == last)
        let_device_act();
    last = offset;
    return nic_get(&n, offset);
}

void os_write32(uint32_t offset, uint32_t word)
{
    if (is_card)
        nicx_write32(offset, word);
    else
        nic_write32(&n, offset, word);
}

/* --- memory --- */

static struct piece {
    uint64_t bus;
    void *memory;
    size_t bytes;
} pieces[PIECES];

/* Allocates and lends whole blocks, at the next bus address. */
static void *take(size_t bytes, uint64_t *bus)
{
    static uint64_t next = 0x100000;
    size_t whole = (bytes + NIC_BLOCK_BYTES - 1) / NIC_BLOCK_BYTES * NIC_BLOCK_BYTES;
    struct piece *piece = pieces;
    while (piece < pieces + PIECES && piece->bytes)
        piece++;
    void *memory = piece < pieces + PIECES ? calloc(1, whole) : NULL;
    if (!memory)
        return NULL;
    if (nic_lend_memory(&n, next, memory, whole) != NIC_DONE) {
        free(memory);
        return NULL;
    }
    *piece = (struct piece){next, memory, whole};
    *bus = next;
    next += whole;
    return memory;
}

void *os_dma_alloc(size_t bytes, uint64_t *bus)
{
    if (!is_card)
        return take(bytes, bus);
    *bus = nicd_dma_alloc(bytes);
    return *bus ? nicd_dma_pointer(*bus) : NULL;
}

void os_dma_free(void *memory, uint64_t bus)
{
    if (is_card)
        nicd_dma_free(bus);
    for (struct piece *piece = pieces; !is_card && piece < pieces + PIECES; piece++)
        if (piece->bytes && piece->memory == memory) {
            nic_unlend_memory(&n, bus, piece->bytes);
            free(memory);
            piece->bytes = 0;
        }
}

/* In a run, the device sees each store at its next step. */
void os_wmb(void)
{
    if (is_card)
        nicx_wmb();
}

void os_rmb(void)
{
    if (is_card)
        nicx_rmb();
}

/* --- the card's calls to the driver --- */

static bool card_open(const nicd_setup *setup)
{
    return driver_open(setup->address, setup->slots, setup->interrupts);
}

static bool card_receive(uint16_t queue, nicd_frame *frame)
{
    struct packet *packet = driver_receive();
    (void)queue;
    if (!packet)
        return false;
    frame->length = packet->length;
    memcpy(frame->bytes, packet->data, packet->length);
    driver_release(packet);
    return true;
}

static bool card_send(uint16_t queue, const uint8_t *bytes, uint32_t length)
{
    struct packet *packet = length <= LONGEST ? driver_packet() : NULL;
    (void)queue;
    if (!packet)
        return false;
    memcpy(packet->data, bytes, length);
    packet->length = length;
    if (driver_send(packet))
        return true;
    driver_discard(packet);
    return false;
}

static uint32_t card_reclaim(uint16_t queue)
{
    (void)queue;
    return driver_reclaim();
}

static uint32_t card_interrupt(uint8_t vector)
{
    (void)vector;
    return 1; /* poll queue 0 */
}

static void card_rearm(uint16_t queue)
{
    (void)queue;
    driver_rearm();
}

static const nicd_driver card = {
    .name = "adapter",
    .can = NICD_NO_MODERATION,
    .open = card_open,
    .close = driver_close,
    .receive = card_receive,
    .send = card_send,
    .reclaim = card_reclaim,
    .interrupt = card_interrupt,
    .rearm = card_rearm,
};

/* --- a run --- */

static const uint8_t address[6] = {2, 0, 0, 0, 0, 1};
static unsigned received, returned;

/* Builds frame `number`. The number determines the frame's 60 to 1,514 bytes. */
static uint32_t make(unsigned number, uint8_t *bytes)
{
    uint32_t length = 60 + number * 37 % (LONGEST - 59);
    for (uint32_t k = 0; k < length; k++)
        bytes[k] = (uint8_t)(number * 31 + k * 7);
    memcpy(bytes, address, sizeof address);
    return length;
}

static void compare(const char *what, unsigned number, const uint8_t *bytes, uint32_t length)
{
    uint8_t wanted[LONGEST];
    if (make(number, wanted) == length && !memcmp(bytes, wanted, length))
        return;
    printf("frame %u: wrong bytes were %s\n", number, what);
    exit(1);
}

/* Sends every received packet back. */
static void poll_queue(void)
{
    struct packet *packet;
    while ((packet = driver_receive())) {
        struct packet *answer = driver_packet();
        compare("received", received++, packet->data, packet->length);
        if (answer) {
            memcpy(answer->data, packet->data, packet->length);
            answer->length = packet->length;
        }
        if (answer && !driver_send(answer))
            driver_discard(answer);
        driver_release(packet);
    }
    driver_reclaim();
    driver_rearm();
}

static void collect(void)
{
    uint8_t bytes[LONGEST];
    nic_outcome outcome;
    while (nic_collect(&n, bytes, sizeof bytes, &outcome) == NIC_FRAME)
        compare("sent", returned++, bytes, (uint32_t)outcome.len);
}

static int run(unsigned frames)
{
    static char why[4096];
    uint8_t bytes[LONGEST];
    nic_outcome outcome;
    if (nic_open(&n, 0, 64, BLOCKS) != NIC_DONE || !driver_open(address, SLOTS, true))
        return 1;
    for (unsigned number = 0; number < frames && returned == number;) {
        for (unsigned k = 0; k <= number % BURST && number < frames; k++, number++)
            nic_arrive(&n, bytes, make(number, bytes), &outcome);
        for (let_device_act(); was_raised[0]; let_device_act()) {
            was_raised[0] = false;
            poll_queue();
        }
        collect();
    }
    printf("%u of %u frames received, %u sent back\n", received, frames, returned);
    if (returned != frames && nic_why(&n, why, sizeof why))
        fputs(why, stdout);
    driver_close();
    nic_close(&n);
    return returned != frames;
}

int main(int argc, char **argv)
{
    unsigned frames = argc > 1 ? (unsigned)strtoul(argv[1], NULL, 10) : FRAMES;
    is_card = !frames;
    return is_card ? nicd_main(argc, argv, &card) : run(frames);
}
