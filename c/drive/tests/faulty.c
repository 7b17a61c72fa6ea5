/* Drivers that the card must survive. -DMODE=name selects one that crashes, hangs or accesses what it doesn't own, in
   the call that the mode's name mentions. The rest is a minimal receive driver. */
#include <pthread.h>
#include <stdlib.h>
#include <string.h>

#include "nic82599_drive.h"

enum mode {
    RIGHT,
#define WRONG(name, ...) name,
#include "faults.h"
#undef WRONG
};

#ifndef MODE
#define MODE RIGHT
#endif

enum { SLOTS = 8, ENABLE = 1 << 25 };

static struct {
    uint64_t ring, buffers[SLOTS];
    uint16_t next;
    nicx_mutex lock;
} driver;

static int calls; /* receive calls over all schedules: open doesn't reset it */

static void *touch(void *unused)
{
    nicx_read32(NIC_STATUS);
    return unused;
}

static void touch_from_a_thread(void)
{
    pthread_t other;
    if (!pthread_create(&other, NULL, touch, NULL))
        pthread_join(other, NULL);
}

static void fault_in_open(void)
{
    static uint8_t memory[4096];
    volatile int *nowhere = NULL;
    if (MODE == CRASH_IN_OPEN)
        *nowhere = 1;
    while (MODE == HANG_IN_OPEN)
        continue;
    while (MODE == WAIT_IN_OPEN && !(nicx_read32(NIC_EERD) & 2))
        nicx_wait();
    if (MODE == STORE_IN_OPEN)
        *((uint8_t *)nicd_dma_pointer(nicd_dma_alloc(128)) + 128) = 1;
    if (MODE == LENDS_IN_PLACE)
        nic_lend_memory(nicx_device(), 0x40000, memory, 4096);
}

static bool open_driver(const nicd_setup *setup)
{
    memset(&driver, 0, sizeof driver);
    fault_in_open();
    if (MODE == OPEN_FALSE || setup->slots != SLOTS)
        return false;
    driver.ring = nicd_dma_alloc(NIC_DESC_BYTES * SLOTS);
    nicx_write32(NIC_FCTRL, NIC_FCTRL_UPE);
    nicx_write32(NIC_RDBAL(0), (uint32_t)driver.ring);
    nicx_write32(NIC_RDLEN(0), NIC_DESC_BYTES * SLOTS);
    nicx_write32(NIC_SRRCTL(0), NIC_SRRCTL_DESCTYPE_IS(1) | NIC_SRRCTL_BSIZEPACKET_IS(2));
    for (unsigned slot = 0; slot < SLOTS; slot++) {
        driver.buffers[slot] = nicd_dma_alloc(2048);
        nicx_put64(driver.ring + NIC_DESC_BYTES * slot, driver.buffers[slot]);
    }
    nicx_write32(NIC_RXDCTL(0), ENABLE);
    while (!(nicx_read32(NIC_RXDCTL(0)) & ENABLE))
        nicx_wait();
    nicx_write32(NIC_RDT(0), SLOTS - 1);
    nicx_write32(NIC_RXCTRL, NIC_RXCTRL_RXEN);
    return true;
}

static void close_driver(void)
{
    if (MODE == ABORT_IN_CLOSE)
        abort();
    nicx_write32(NIC_RXDCTL(0), 0);
    while (nicx_read32(NIC_RXDCTL(0)) & ENABLE)
        nicx_wait();
    for (unsigned slot = 0; slot < SLOTS; slot++)
        nicd_dma_free(driver.buffers[slot]);
    if (MODE == FREE_TWICE)
        nicd_dma_free(driver.buffers[0]);
    if (MODE != MEMORY_LEFT)
        nicd_dma_free(MODE == FREE_OTHERS ? 0x1000 : driver.ring);
}

static void store_where_nothing_is(void)
{
    uint8_t *ring = nicd_dma_pointer(driver.ring);
    if (MODE == STORE_PAST_A_PIECE)
        ring[NIC_DESC_BYTES * SLOTS] = 1;
    if (MODE == STORE_GIVEN_BACK) {
        uint64_t bus = nicd_dma_alloc(100);
        uint8_t *piece = nicd_dma_pointer(bus);
        nicd_dma_free(bus);
        piece[0] = 1;
    }
    if (MODE == POINTER_TO_NOTHING)
        nicd_dma_pointer(0x10);
}

static void fault_in_receive(void)
{
    volatile int *nowhere = NULL;
    uint8_t bytes[16] = {0};
    if (MODE == CRASH_IN_RECEIVE)
        *nowhere = 1;
    if (MODE == EXIT_IN_RECEIVE)
        exit(0);
    while (MODE == HANG_IN_RECEIVE)
        continue;
    if (MODE == OUTSIDE_DMA)
        nicx_dma_write(driver.ring + NIC_DESC_BYTES * SLOTS, bytes, sizeof bytes);
    if (MODE >= STORE_PAST_A_PIECE && MODE <= POINTER_TO_NOTHING)
        store_where_nothing_is();
    if (MODE == OTHERS_DMA)
        nicx_lend(200);
    if (MODE == FROM_A_THREAD)
        touch_from_a_thread();
    if (MODE == LOCK_LEFT)
        nicx_lock(&driver.lock);
}

static bool receive(uint16_t queue, nicd_frame *frame)
{
    unsigned slot = driver.next;
    uint64_t second = nicx_get64(driver.ring + NIC_DESC_BYTES * slot + 8);
    if (!(second & NIC_RXWB_DD))
        return false;
    fault_in_receive();
    calls++;
    frame->length = MODE == NO_LENGTH ? 0 : (uint32_t)nic_desc_field(second, NIC_RXWB_PKT_LEN);
    nicx_dma_read(driver.buffers[slot], frame->bytes, frame->length);
    if (MODE == PAST_THE_FRAME)
        memset(frame->bytes + NICD_FRAME_MOST, 1, 8);
    if (MODE == STATE_LEFT && calls == 400)
        frame->bytes[20] ^= 1;
    nicx_put64(driver.ring + NIC_DESC_BYTES * slot, driver.buffers[slot]);
    nicx_put64(driver.ring + NIC_DESC_BYTES * slot + 8, 0);
    driver.next = (uint16_t)((slot + 1) % SLOTS);
    nicx_write32(NIC_RDT(0), slot);
    if (MODE == OTHER_QUEUE)
        nicd_deliver((uint16_t)(queue + 3), frame->bytes, frame->length);
    return true;
}

/* Keeps running after the driver is closed. */
static void thread(uint32_t number)
{
    (void)number;
    for (unsigned k = 0; k < 200; k++) {
        nicx_read32(NIC_GPRC);
        nicx_pause();
    }
}

int main(int argc, char **argv)
{
    static const nicd_driver card = {
        .name = "faulty",
        .open = open_driver,
        .close = close_driver,
        .receive = receive,
        .threads = MODE == THREAD_LEFT ? 1 : 0,
        .thread = thread,
    };
    return nicd_main(argc, argv, &card);
}
