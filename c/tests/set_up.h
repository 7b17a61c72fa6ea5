/* Controllers with four queues, set up at random but usually correctly. The same calls are made to `count` of them, so
   that they remain alike. */
#ifndef SET_UP_H
#define SET_UP_H

#include "check.h"

enum { BLOCKS = 8, QUEUES = 4, FIFO = 8 };

static const uint32_t addresses[] = {
#define ADDRESS(address) address,
#include "addresses.inc"
#undef ADDRESS
};

static void each_write(nic *n, int count, uint32_t address, uint32_t word)
{
    for (int k = 0; k < count; k++)
        nic_write32(&n[k], address, word);
}

static void each_put(nic *n, int count, uint64_t ring, uint32_t slot, nic_desc d)
{
    for (int k = 0; k < count; k++)
        nic_put_desc(&n[k], ring, slot, d);
}

static void each_arrive(nic *n, int count)
{
    nic_outcome outcome;
    uint8_t frame[60] = {2, 0, 0, 0, 0, 1, 2, 0, 0, 0, 0, 9, 8, 0, 0x45};
    frame[26] = (uint8_t)below(256);
    uint8_t status = nic_arrive(&n[0], frame, sizeof frame, &outcome);
    for (int k = 1; k < count; k++)
        ANSWERS(status, nic_arrive(&n[k], frame, sizeof frame, &outcome));
}

/* Sets up a queue, usually correctly. */
static void set_up(nic *n, int count, uint32_t queue)
{
    each_write(n, count, NIC_RDBAL(queue), 0x100 * queue);
    each_write(n, count, NIC_RDLEN(queue), below(8) ? 128 : 0);
    each_write(n, count, NIC_SRRCTL(queue), below(8) ? 0x02000001 : 0x02000000);
    each_write(n, count, NIC_RXDCTL(queue), below(8) ? NIC_RXDCTL_ENABLE : 0);
    each_write(n, count, NIC_TDBAL(queue), 0x800 + 0x100 * queue);
    each_write(n, count, NIC_TDLEN(queue), 128);
    each_write(n, count, NIC_TXDCTL(queue), below(8) ? NIC_TXDCTL_ENABLE : 0);
    each_write(n, count, NIC_IVAR(queue / 2), 0x83828180);
    for (uint32_t slot = 0; slot < 8; slot++) {
        each_put(n, count, 0x100 * queue, slot, nic_rx_desc(below(8) ? 0x1000 + 0x400 * below(8) : 0x8000));
        each_put(n, count, 0x800 + 0x100 * queue, slot,
                 nic_tx_desc(0x1000, 60, 60, below(4) ? NIC_TXD_EOP | NIC_TXD_RS : 0));
    }
}

/* Makes a random call, usually one that a driver or the link makes. */
static void one_call(nic *n, int count)
{
    uint32_t queue = below(QUEUES), bit;
    switch (below(8)) {
    case 0: set_up(n, count, queue); break;
    case 1: each_write(n, count, NIC_RDT(queue), below(9)); break;
    case 2: each_write(n, count, NIC_TDT(queue), below(9)); break;
    case 3: each_write(n, count, NIC_EIMS, (uint32_t)chance()); break;
    case 4: each_write(n, count, NIC_EICS, (uint32_t)chance()); break;
    case 5: each_arrive(n, count); break;
    case 6: each_write(n, count, below(2) ? NIC_EERD : NIC_VTEIMS, 1); break;
    default:
        /* In two statements: the order in which arguments are evaluated is up to the compiler. */
        bit = 1u << below(32);
        each_write(n, count, addresses[below(sizeof addresses / sizeof *addresses)], bit);
    }
}

static void open_all(nic *n, int count, uint8_t vfs)
{
    for (int k = 0; k < count; k++) {
        ANSWERS(NIC_DONE, nic_open(&n[k], vfs, FIFO, BLOCKS));
        ANSWERS(NIC_DONE, nic_lend_all(&n[k]));
    }
    each_write(n, count, NIC_GCR_EXT, below(4));
    each_write(n, count, NIC_RXCTRL, NIC_RXCTRL_RXEN);
    each_write(n, count, NIC_DMATXCTL, NIC_DMATXCTL_TE);
    each_write(n, count, NIC_FCTRL, NIC_FCTRL_UPE);
    each_write(n, count, NIC_MRQC, NIC_MRQC_MRQE_IS(1) | NIC_MRQC_IPV4);
    each_write(n, count, NIC_RSSRK(0), 0x55aa1234);
    each_write(n, count, NIC_RETA(0), 0x03020100);
    each_write(n, count, NIC_IVAR_MISC, 0x8182);
}

#endif
