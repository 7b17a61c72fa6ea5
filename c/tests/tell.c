/* Produces the reports of NIC82599_TELL=1 on standard error: strays, drops and faults, of two controllers and in a
   child of fork. c/test compares them with tell.out, and with nothing if the variable is 0 or unset. */
#define _POSIX_C_SOURCE 200809L
#include <string.h>
#include <sys/wait.h>
#include <unistd.h>

#include "check.h"

enum { RING = 0x1000, ON = 0x02000000, MANY = 120 };

static nic_outcome outcome;

static void arrive(nic *n, const uint8_t to[6], size_t length, unsigned times)
{
    uint8_t frame[1600] = {0};
    memcpy(frame, to, 6);
    while (times--)
        nic_arrive(n, frame, length, &outcome);
}

static void strays(nic *n)
{
    uint32_t word;
    for (uint32_t k = 0; k < 8; k++)
        nic_write32(n, 0x03c00 + 4 * k, k); /* registers of one family */
    for (int k = 0; k < MANY; k++)
        nic_read32(n, 0x10148, &word);
    nic_read32(n, 0x000f4, &word);
    nic_read32(n, 0x000f2, &word);
    nic_vf_write32(n, 0, NIC_VTEIMS, 1);
    nic_vf_read32(n, 0, NIC_VFMAILBOX, &word);
    nic_vf_read32(n, 1, 0x0abc, &word);
}

static void drops(nic *n)
{
    static const uint8_t one[6] = {2, 0, 0, 0, 0, 9}, many[6] = {1, 0, 0x5e, 0, 0, 1};
    static const uint8_t all[6] = {0xff, 0xff, 0xff, 0xff, 0xff, 0xff};
    arrive(n, one, 60, 1);
    nic_write32(n, NIC_RXCTRL, NIC_RXCTRL_RXEN);
    arrive(n, one, 60, 11);
    arrive(n, many, 60, 1);
    arrive(n, all, 60, 2);
    nic_write32(n, NIC_FCTRL, NIC_FCTRL_UPE);
    arrive(n, one, 1600, 1);
    arrive(n, one, 60, 1);
    nic_rx_step(n, &outcome); /* the queue is off */
}

static void settle(nic *n)
{
    nic_outcome events[8];
    size_t count;
    ANSWERS(NIC_DONE, nic_settle(n, 1, events, 8, &count));
}

static void enable_again(nic *n)
{
    nic_write32(n, NIC_TXDCTL(0), 0);
    settle(n);
    nic_write32(n, NIC_TXDCTL(0), ON);
    settle(n);
}

static void faults(nic *n)
{
    static const uint8_t one[6] = {2, 0, 0, 0, 0, 9};
    nic_settling where = {1, 0};
    nic_write32(n, NIC_RXCTRL, NIC_RXCTRL_RXEN);
    nic_write32(n, NIC_FCTRL, NIC_FCTRL_UPE);
    nic_write32(n, NIC_RDLEN(0), 128);
    nic_write32(n, NIC_SRRCTL(0), NIC_SRRCTL_DESCTYPE_IS(1) | NIC_SRRCTL_BSIZEPACKET_IS(2));
    nic_write32(n, NIC_RXDCTL(0), ON);
    settle(n);
    nic_write32(n, NIC_RDT(0), 9);
    arrive(n, one, 60, 1);
    settle(n);
    nic_write32(n, NIC_DMATXCTL, NIC_DMATXCTL_TE);
    nic_write32(n, NIC_TDBAL(0), RING);
    nic_write32(n, NIC_TDLEN(0), 128);
    nic_write32(n, NIC_TXDCTL(0), ON);
    settle(n);
    nic_lend(n, RING / NIC_BLOCK_BYTES);
    nic_write32(n, NIC_TDT(0), 1);
    CHECK(nic_next_step(n, &where, &outcome) == NIC_MORE && outcome.status == NIC_FAULT);
    nic_put_desc(n, RING, 0, nic_tx_desc(0x8000, 60, 60, NIC_TXD_EOP | NIC_TXD_IFCS));
    enable_again(n); /* and the fault disables the queue */
    for (uint16_t slot = 0; slot < 2; slot++)
        nic_put_desc(n, RING, slot, nic_tx_desc(RING + 1024, 1000, 2000, NIC_TXD_IFCS)); /* no EOP */
    nic_write32(n, NIC_TDT(0), 2);
    enable_again(n);
}

static void in_a_child(nic *n)
{
    fflush(NULL);
    pid_t child = fork();
    if (!child) {
        uint32_t word;
        nic_read32(n, 0x10148, &word); /* counted by the parent */
        nic_read32(n, 0x10140, &word);
        exit(0);
    }
    int status;
    CHECK(waitpid(child, &status, 0) == child && status == 0);
}

static nic second;

static void close_second(void)
{
    nic_close(&second);
}

int main(void)
{
    nic first;
    atexit(close_second); /* runs after the library's own handler, which reports the second one's counts */
    ANSWERS(NIC_DONE, nic_open(&first, 0, 64, 16));
    ANSWERS(NIC_DONE, nic_open(&second, 2, 64, 16));
    strays(&first);
    drops(&first);
    in_a_child(&first);
    faults(&second);
    nic_close(&first);
    nic_write32(&second, 0x03c04, 1);
    nic_write32(&second, 0x03c04, 2);
    return 0;
}
