/* The smallest driver that gets a card: it receives on one queue, with interrupts or by polling. */
#include <string.h>

#include "nic82599_drive.h"

enum { SLOTS = 64, CAUSE = 1 };

static struct {
    uint64_t ring, buffers[SLOTS];
    unsigned slots, next;
} driver;

/* --- the driver --- */

static void post(unsigned slot)
{
    nicx_put64(driver.ring + NIC_DESC_BYTES * slot, driver.buffers[slot]);
    nicx_put64(driver.ring + NIC_DESC_BYTES * slot + 8, 0);
}

static void start_queue(void)
{
    nicx_write32(NIC_RDBAL(0), (uint32_t)driver.ring);
    nicx_write32(NIC_RDBAH(0), (uint32_t)(driver.ring >> 32));
    nicx_write32(NIC_RDLEN(0), NIC_DESC_BYTES * driver.slots);
    nicx_write32(NIC_SRRCTL(0), NIC_SRRCTL_DESCTYPE_IS(1) | NIC_SRRCTL_BSIZEPACKET_IS(2));
    nicx_write32(NIC_RXDCTL(0), NIC_RXDCTL_ENABLE);
    while (!(nicx_read32(NIC_RXDCTL(0)) & NIC_RXDCTL_ENABLE))
        nicx_wait();
    nicx_write32(NIC_RDT(0), driver.slots - 1);
}

static void start_interrupts(void)
{
    nicx_write32(NIC_GPIE, NIC_GPIE_MULTIPLE_MSIX | NIC_GPIE_EIAME);
    nicx_write32(NIC_IVAR(0), NIC_IVAR_INT_ALLOC_0_IS(0) | NIC_IVAR_INT_ALLOC_VAL_0);
    nicx_write32(NIC_EIAC, CAUSE);
    nicx_write32(NIC_EIAM, CAUSE);
    nicx_write32(NIC_EIMS, CAUSE);
}

static bool receive_one(uint8_t *bytes, uint32_t *length)
{
    unsigned slot = driver.next;
    uint64_t done = nicx_get64(driver.ring + NIC_DESC_BYTES * slot + 8);
    if (!(done & NIC_RXWB_DD))
        return false;
    *length = (uint32_t)nic_desc_field(done, NIC_RXWB_PKT_LEN);
    nicx_dma_read(driver.buffers[slot], bytes, *length);
    post(slot);
    nicx_write32(NIC_RDT(0), slot);
    driver.next = (slot + 1) % driver.slots;
    return true;
}

/* --- the adapter --- */

static void my_close(void)
{
    nicx_write32(NIC_EIMC, 0x7FFFFFFF);
    nicx_write32(NIC_RXDCTL(0), 0);
    while (nicx_read32(NIC_RXDCTL(0)) & NIC_RXDCTL_ENABLE)
        nicx_wait();
    for (unsigned slot = 0; slot < driver.slots; slot++)
        nicd_dma_free(driver.buffers[slot]);
    nicd_dma_free(driver.ring);
}

static bool my_open(const nicd_setup *setup)
{
    memset(&driver, 0, sizeof driver);
    driver.slots = setup->slots;
    nicx_write32(NIC_EIMC, 0x7FFFFFFF);
    nicx_write32(NIC_CTRL, NIC_CTRL_RST);
    nicx_write32(NIC_EIMC, 0x7FFFFFFF);
    nicx_write32(NIC_FCTRL, NIC_FCTRL_BAM | NIC_FCTRL_UPE);
    driver.ring = nicd_dma_alloc(NIC_DESC_BYTES * setup->slots);
    for (unsigned slot = 0; slot < setup->slots; slot++) {
        driver.buffers[slot] = nicd_dma_alloc(2048);
        post(slot);
    }
    start_queue();
    if (setup->interrupts)
        start_interrupts();
    nicx_write32(NIC_RXCTRL, NIC_RXCTRL_RXEN);
    return true;
}

static bool my_receive(uint16_t queue, nicd_frame *frame)
{
    (void)queue;
    return receive_one(frame->bytes, &frame->length);
}

static uint32_t my_interrupt(uint8_t vector)
{
    (void)vector;
    return 1; /* poll queue 0; the device masked its cause when it sent the message (EIAM) */
}

static void my_rearm(uint16_t queue)
{
    (void)queue;
    nicx_write32(NIC_EIMS, CAUSE);
}

int main(int argc, char **argv)
{
    static const nicd_driver card = {
        .name = "small",
        .can = NICD_NO_ADDRESS | NICD_NO_HEADS | NICD_NO_MODERATION,
        .open = my_open,
        .close = my_close,
        .receive = my_receive,
        .interrupt = my_interrupt,
        .rearm = my_rearm,
    };
    return nicd_main(argc, argv, &card);
}
