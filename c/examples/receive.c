/* A TCP frame arrives. Its hash picks queue 3, the device writes it to the ring, and an interrupt
   reports it. */
#include <stdio.h>

#include "nic82599.h"

static const uint8_t frame[60] = {
    /* Ethernet: IPv4 */
    2, 0, 0, 0, 0, 1, 2, 0, 0, 0, 0, 2, 8, 0,
    /* IPv4: TCP */
    0x45, 0, 0, 40, 0, 0, 0, 0, 64, 6, 0, 0, 66, 9, 149, 187, 161, 142, 100, 80,
    /* ports 2794 and 1766 */
    10, 234, 6, 230, 0, 0, 0, 0, 0, 0, 0, 0, 0x50, 16, 0, 0, 0, 0, 0, 0};

int main(void)
{
    nic n;
    nic_outcome outcomes[16];
    size_t count;
    nic_desc written;
    /* no virtual functions, room for 64 waiting frames, 2 blocks of memory */
    if (nic_open(&n, 0, 64, 2) != NIC_DONE)
        return 1;
    nic_lend_all(&n);
    nic_write32(&n, NIC_RXCTRL, NIC_RXCTRL_RXEN);
    nic_write32(&n, NIC_FCTRL, NIC_FCTRL_UPE); /* accept all unicast frames */
    nic_write32(&n, NIC_MRQC, NIC_MRQC_MRQE_IS(1) | NIC_MRQC_TCPIPV4);
    nic_write32(&n, NIC_RETA(0), NIC_RETA_ENTRY_0_IS(3)); /* with a key of zeros the hash is 0 */
    nic_write32(&n, NIC_RDLEN(3), 128);                   /* eight descriptors, starting at address 0 */
    nic_write32(&n, NIC_SRRCTL(3), NIC_SRRCTL_DESCTYPE_IS(1) | NIC_SRRCTL_BSIZEPACKET_IS(2));
    nic_write32(&n, NIC_RXDCTL(3), NIC_RXDCTL_ENABLE);
    /* MSI-X mode; the queue's cause: bit 5 */
    nic_write32(&n, NIC_GPIE, NIC_GPIE_MULTIPLE_MSIX);
    nic_write32(&n, NIC_IVAR(1), NIC_IVAR_INT_ALLOC_2_IS(5) | NIC_IVAR_INT_ALLOC_VAL_2);
    nic_write32(&n, NIC_EIMS, 1u << 5);
    nic_settle(&n, 4, outcomes, 16, &count);    /* the device enables the queue */
    nic_put_desc(&n, 0, 0, nic_rx_desc(0x800)); /* slot 0 gets a descriptor for the buffer at 0x800 */
    nic_write32(&n, NIC_RDT(3), 1);             /* hand slot 0 to the device */
    printf("arrives: %s\n", nic_status_name(nic_arrive(&n, frame, sizeof frame, outcomes)));
    nic_settle(&n, 4, outcomes, 16, &count);
    for (size_t k = 0; k < count; k++)
        printf("%s %u: %s\n", nic_step_name(outcomes[k].step), outcomes[k].of, nic_status_name(outcomes[k].status));
    nic_get_desc(&n, 0, 0, &written);
    printf("done %d, %d bytes, head %u\n", nic_rx_is_done(written), nic_rx_length(written),
           (unsigned)nic_get(&n, NIC_RDH(3)));
    nic_close(&n);
    return 0;
}
