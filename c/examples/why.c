/* Drivers that forget to write a register see nothing happen: nic_why says why. */
#include <stdio.h>

#include "nic82599.h"

static const uint8_t frame[60] = {2, 0, 0, 0, 0, 1, 2, 0, 0, 0, 0, 2, 8, 0, 0x45};

/* Sets up queue 3, except for the register at the address `forgotten`, if there is one. */
static void set_up(nic *n, uint32_t forgotten)
{
    const struct {
        uint32_t address, word;
    } writes[] = {
        {NIC_RXCTRL, NIC_RXCTRL_RXEN},
        {NIC_FCTRL, NIC_FCTRL_UPE},
        {NIC_MRQC, NIC_MRQC_MRQE_IS(1) | NIC_MRQC_IPV4},
        {NIC_RETA(0), NIC_RETA_ENTRY_0_IS(3)},
        {NIC_RDLEN(3), 128},
        {NIC_SRRCTL(3), NIC_SRRCTL_DESCTYPE_IS(1) | NIC_SRRCTL_BSIZEPACKET_IS(2)},
        {NIC_RXDCTL(3), NIC_RXDCTL_ENABLE},
        {NIC_GPIE, NIC_GPIE_MULTIPLE_MSIX},
        {NIC_IVAR(1), NIC_IVAR_INT_ALLOC_2_IS(5) | NIC_IVAR_INT_ALLOC_VAL_2},
        {NIC_EIMS, 1u << 5},
        {NIC_RDT(3), 1},
    };
    for (size_t k = 0; k < sizeof writes / sizeof *writes; k++)
        if (writes[k].address != forgotten)
            nic_write32(n, writes[k].address, writes[k].word);
}

static int receive(const char *name, uint32_t forgotten)
{
    nic n;
    nic_outcome outcome;
    nic_settling where = {4, 0};
    char why[2048];
    if (nic_open(&n, 0, 64, 2) != NIC_DONE)
        return 1;
    nic_lend_all(&n);
    nic_put_desc(&n, 0, 0, nic_rx_desc(0x800));
    set_up(&n, forgotten);
    while (nic_next_step(&n, &where, &outcome) == NIC_MORE)
        ;
    nic_arrive(&n, frame, sizeof frame, &outcome);
    printf("without %s\n", name);
    while (nic_next_step(&n, &where, &outcome) == NIC_MORE) /* a driver acts on each step before the next */
        printf("    %s %u: %s\n", nic_step_name(outcome.step), outcome.of, nic_status_name(outcome.status));
    nic_why(&n, why, sizeof why);
    fputs(why, stdout);
    nic_close(&n);
    return 0;
}

int main(void)
{
    return receive("a mistake", UINT32_MAX) || receive("RDT", NIC_RDT(3)) || receive("RXEN", NIC_RXCTRL) ||
           receive("SRRCTL", NIC_SRRCTL(3)) || receive("IVAR", NIC_IVAR(1));
}
