/* A minimal run. Its driver, `set_up` and `poll` below, sends back each frame that it receives. */
#include <stdio.h>
#include <stdlib.h>
#include <string.h>

#include "frames.h"
#include "run.h"
#include "verdict.h"

enum { SLOTS = 8, BUFFER = 2048, BUS = 0x100000, BYTES = 2048 + SLOTS * BUFFER, FRAMES = 20 };

static const uint8_t card[6] = {2, 0, 0, 0, 0x82, 0x99}, peer[6] = {2, 0, 0, 0, 0, 1};
static uint8_t *memory; /* at bus address BUS: two rings and a buffer for each slot */
static nic_desc *rx, *tx;
static unsigned int came_back;

/* ---- the driver ---- */

static void set_up(void)
{
    bus_write(run_bus, BUS_PHYSICAL, NIC_CTRL, NIC_CTRL_RST); /* the reset also sets the MAC address from the EEPROM */
    bus_write(run_bus, BUS_PHYSICAL, NIC_RDBAL(0), BUS);
    bus_write(run_bus, BUS_PHYSICAL, NIC_RDLEN(0), SLOTS * sizeof *rx);
    bus_write(run_bus, BUS_PHYSICAL, NIC_SRRCTL(0),
              NIC_SRRCTL_DESCTYPE_IS(1) | NIC_SRRCTL_BSIZEPACKET_IS(BUFFER / 1024));
    bus_write(run_bus, BUS_PHYSICAL, NIC_RXDCTL(0), NIC_RXDCTL_ENABLE);
    while (!(bus_read(run_bus, BUS_PHYSICAL, NIC_RXDCTL(0)) & NIC_RXDCTL_ENABLE))
        continue;
    bus_write(run_bus, BUS_PHYSICAL, NIC_DMATXCTL, NIC_DMATXCTL_TE);
    bus_write(run_bus, BUS_PHYSICAL, NIC_TDBAL(0), BUS + SLOTS * sizeof *rx);
    bus_write(run_bus, BUS_PHYSICAL, NIC_TDLEN(0), SLOTS * sizeof *tx);
    bus_write(run_bus, BUS_PHYSICAL, NIC_TXDCTL(0), NIC_TXDCTL_ENABLE);
    while (!(bus_read(run_bus, BUS_PHYSICAL, NIC_TXDCTL(0)) & NIC_TXDCTL_ENABLE))
        continue;
    for (unsigned int slot = 0; slot < SLOTS; slot++)
        rx[slot] = nic_rx_desc(BUS + 2048 + slot * BUFFER);
    bus_write(run_bus, BUS_PHYSICAL, NIC_RDT(0), SLOTS - 1);
    bus_write(run_bus, BUS_PHYSICAL, NIC_RXCTRL, NIC_RXCTRL_RXEN);
}

/* Sends each frame from the buffer that it arrived in, and then returns the slot to the device. */
static void poll(void)
{
    static unsigned int next;
    for (; nic_rx_is_done(rx[next]); next = (next + 1) % SLOTS) {
        uint16_t length = nic_rx_length(rx[next]);
        tx[next] = nic_tx_desc(BUS + 2048 + next * BUFFER, length, length, NIC_TXD_EOP | NIC_TXD_IFCS | NIC_TXD_RS);
        bus_write(run_bus, BUS_PHYSICAL, NIC_TDT(0), (next + 1) % SLOTS);
        for (unsigned int waited = 0; !nic_tx_is_done(tx[next]) && waited < 1000; waited++)
            bus_wait(run_bus, 1);
        rx[next] = nic_rx_desc(BUS + 2048 + next * BUFFER);
        bus_write(run_bus, BUS_PHYSICAL, NIC_RDT(0), next);
    }
}

/* ---- the run ---- */

static void on_frame(void *of, uint16_t queue, const uint8_t *bytes, size_t length)
{
    (void)of;
    struct frame wanted;
    frame_make(&wanted, came_back, FRAME_MAX, card, peer);
    if (queue || !frame_is(&wanted, bytes, length))
        problem("frame %u was sent with wrong bytes", came_back);
    came_back++;
}

int main(void)
{
    struct bus_options options = {.mac = {2, 0, 0, 0, 0x82, 0x99}, .fifo = 64, .answers = BUS_ALL};
    struct frame frame;
    memory = calloc(1, BYTES);
    if (!memory || !run_open(&options, false) || !memory_lend(&run_memory, BUS, memory, BYTES))
        return 2;
    rx = (nic_desc *)(void *)memory;
    tx = rx + SLOTS;
    bus_send_to(run_bus, on_frame, NULL);
    set_up();
    for (uint32_t number = 0; number < FRAMES; number++) {
        frame_make(&frame, number, FRAME_MAX, card, peer);
        bus_arrive(run_bus, frame.bytes, frame.length);
        bus_receive(run_bus);
        poll();
    }
    if (all_of("frames came back", came_back, FRAMES))
        printf("%u frames came back unchanged\n", came_back);
    run_check_counts(0, 0); /* no drops and no faults expected */
    run_close();
    free(memory);
    return verdict();
}
