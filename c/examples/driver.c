/* A driver with rings and buffers in its own memory, from malloc. It sends each frame that it receives back to its
   sender. */
#include <stdio.h>
#include <stdlib.h>
#include <string.h>

#include "nic82599.h"

enum { SLOTS = 8, BUFFER = 2048, BYTES = 2048 + 2 * SLOTS * BUFFER };

/* The memory that the device shares: two rings in the first 2,048 bytes, and a buffer for each of their slots. */
static uint8_t *memory;
static nic_desc *rx_ring, *tx_ring;

/* Returns the bus address of a byte in this memory, which is lent starting at bus address 0. */
static uint64_t bus_of(const void *place)
{
    return (uint64_t)((const uint8_t *)place - memory);
}

static uint8_t *rx_buffer(unsigned slot)
{
    return memory + 2048 + slot * BUFFER;
}

static uint8_t *tx_buffer(unsigned slot)
{
    return rx_buffer(SLOTS + slot);
}

/* Sets up the registers as on the card. The device gets all slots of the receive ring but one. */
static void bring_up(nic *n)
{
    nic_write32(n, NIC_RXCTRL, NIC_RXCTRL_RXEN);
    nic_write32(n, NIC_FCTRL, NIC_FCTRL_UPE);
    nic_write32(n, NIC_RDBAL(0), (uint32_t)bus_of(rx_ring));
    nic_write32(n, NIC_RDLEN(0), SLOTS * sizeof *rx_ring);
    nic_write32(n, NIC_SRRCTL(0), NIC_SRRCTL_DESCTYPE_IS(1) | NIC_SRRCTL_BSIZEPACKET_IS(2));
    nic_write32(n, NIC_RXDCTL(0), NIC_RXDCTL_ENABLE);
    nic_write32(n, NIC_DMATXCTL, NIC_DMATXCTL_TE);
    nic_write32(n, NIC_TDBAL(0), (uint32_t)bus_of(tx_ring));
    nic_write32(n, NIC_TDLEN(0), SLOTS * sizeof *tx_ring);
    nic_write32(n, NIC_TXDCTL(0), NIC_TXDCTL_ENABLE);
    for (unsigned slot = 0; slot < SLOTS; slot++)
        rx_ring[slot] = nic_rx_desc(bus_of(rx_buffer(slot)));
    nic_write32(n, NIC_RDT(0), SLOTS - 1);
}

static bool is_free(nic_desc slot)
{
    return !slot.second || nic_tx_is_done(slot);
}

/* Sends each received frame back, as long as the transmit ring has room, and posts its buffer again. */
static void poll_once(nic *n, unsigned *next)
{
    for (; nic_rx_is_done(rx_ring[*next]) && is_free(tx_ring[*next]); *next = (*next + 1) % SLOTS) {
        uint8_t *in = rx_buffer(*next), *out = tx_buffer(*next);
        uint16_t length = nic_rx_length(rx_ring[*next]);
        memcpy(out, in + 6, 6); /* swap the addresses */
        memcpy(out + 6, in, 6);
        memcpy(out + 12, in + 12, length - 12u);
        tx_ring[*next] = nic_tx_desc(bus_of(out), length, length, NIC_TXD_EOP | NIC_TXD_IFCS | NIC_TXD_RS);
        nic_write32(n, NIC_TDT(0), (*next + 1) % SLOTS);
        rx_ring[*next] = nic_rx_desc(bus_of(in));
        nic_write32(n, NIC_RDT(0), *next);
    }
}

int main(void)
{
    static const uint8_t frame[60] = {2, 0, 0, 0, 0, 1, 2, 0, 0, 0, 0, 2, 8, 6, 'h', 'i'};
    uint8_t sent[1514];
    nic n;
    nic_outcome outcomes[32];
    size_t count;
    unsigned next = 0;
    memory = calloc(1, BYTES);
    if (!memory || nic_open(&n, 0, 64, BYTES / NIC_BLOCK_BYTES) != NIC_DONE)
        return 1;
    rx_ring = (nic_desc *)(void *)memory;
    tx_ring = rx_ring + SLOTS;
    printf("lend %d bytes: %s\n", BYTES, nic_status_name(nic_lend_memory(&n, 0, memory, BYTES)));
    bring_up(&n);
    nic_settle(&n, 1, outcomes, 32, &count); /* the device enables both sides */
    for (unsigned k = 0; k < 3; k++)
        nic_arrive(&n, frame, sizeof frame, outcomes);
    nic_settle(&n, 1, outcomes, 32, &count); /* the device writes the frames to the driver's buffers */
    poll_once(&n, &next);
    nic_settle(&n, 1, outcomes, 32, &count); /* the device reads the frames to send from there */
    while (nic_collect(&n, sent, sizeof sent, outcomes) == NIC_FRAME)
        printf("out: %d bytes to 02:..:%02x, %c%c\n", (int)outcomes[0].len, sent[5], sent[14], sent[15]);
    printf("slot 0 is sent: %d\n", nic_tx_is_done(tx_ring[0]));
    nic_close(&n);
    free(memory);
    return 0;
}
