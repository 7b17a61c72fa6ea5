/* A race in a poll loop, shown by one order of calls. A driver that finds its ring empty unmasks the interrupt again.
   If it also clears EICR at that point, it loses a frame that arrived in between: the frame is in the ring, but no
   interrupt reports it. In this example the frame arrives at that moment, because its arrival and its receive step are
   ordinary calls. */
#include <stdio.h>

#include "nic82599.h"

enum { QUEUE = 0, CAUSE = 1u << 5 };

/* How two drivers end the poll. */
enum ending { UNMASK, CLEAR_AND_UNMASK };

static void bring_up(nic *n)
{
    nic_outcome outcome;
    nic_lend_all(n);
    nic_write32(n, NIC_RXCTRL, NIC_RXCTRL_RXEN);
    nic_write32(n, NIC_FCTRL, NIC_FCTRL_UPE);
    nic_write32(n, NIC_RDLEN(QUEUE), 128);
    nic_write32(n, NIC_SRRCTL(QUEUE), NIC_SRRCTL_DESCTYPE_IS(1) | NIC_SRRCTL_BSIZEPACKET_IS(2));
    nic_write32(n, NIC_RXDCTL(QUEUE), NIC_RXDCTL_ENABLE);
    nic_queue_step(n, false, QUEUE, &outcome);
    for (uint32_t slot = 0; slot < 7; slot++)
        nic_put64(n, 16 * slot, NIC_BLOCK_BYTES);
    nic_write32(n, NIC_RDT(QUEUE), 7);
    /* MSI-X mode: writing EICR clears a queue's cause, but reading it doesn't */
    nic_write32(n, NIC_GPIE, NIC_GPIE_MULTIPLE_MSIX | NIC_GPIE_OCD | NIC_GPIE_PBA_SUPPORT);
    nic_write32(n, NIC_IVAR(0), NIC_IVAR_INT_ALLOC_0_IS(5) | NIC_IVAR_INT_ALLOC_VAL_0);
    nic_write32(n, NIC_EIMS, CAUSE);
}

/* A frame arrives, and the device writes it. */
static void receive(nic *n)
{
    static const uint8_t frame[60] = {2, 0, 0, 0, 0, 1, 2, 0, 0, 0, 0, 2, 0x88, 0xB5};
    nic_outcome outcome;
    nic_arrive(n, frame, sizeof frame, &outcome);
    nic_rx_step(n, &outcome);
}

/* Returns the number of completed descriptors. */
static unsigned done(nic *n)
{
    unsigned count = 0;
    for (uint32_t slot = 0; slot < 7; slot++) {
        uint64_t second = 0;
        nic_get64(n, 16 * slot + 8, &second);
        count += second & 1;
    }
    return count;
}

static void poll(enum ending ending)
{
    nic n;
    nic_outcome outcome;
    if (nic_open(&n, 0, 64, 2) != NIC_DONE)
        return;
    bring_up(&n);
    receive(&n);
    printf("message: %s\n", nic_status_name(nic_int_step(&n, 0, &outcome)));
    nic_write32(&n, NIC_EIMC, CAUSE);
    nic_write32(&n, NIC_EICR, CAUSE);
    printf("polled: %u done\n", done(&n));
    receive(&n); /* the driver has polled, and won't poll again */
    if (ending == CLEAR_AND_UNMASK)
        nic_write32(&n, NIC_EICR, CAUSE);
    nic_write32(&n, NIC_EIMS, CAUSE);
    printf("message: %s, and %u are done\n", nic_status_name(nic_int_step(&n, 0, &outcome)), done(&n));
    nic_close(&n);
}

int main(void)
{
    printf("a driver that unmasks\n");
    poll(UNMASK);
    printf("a driver that clears EICR and unmasks\n");
    poll(CLEAR_AND_UNMASK);
    return 0;
}
