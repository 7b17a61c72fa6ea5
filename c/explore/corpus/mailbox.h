/* The PF's driver, virtual function 0's driver, and the mailbox between them. */
#ifndef CORPUS_MAILBOX_H
#define CORPUS_MAILBOX_H

#include "corpus.h"

enum {
    REQ = 1,
    ACK = 2,
    VFU = 4,
    PFU = 8,
    PFSTS = 16,
    PFACK = 32,
    RSTD = 128, /* in VFMAILBOX */
    STS = 1,    /* in PFMAILBOX, as are ACK and PFU */
    VFMAILBOX = 0x2FC,
    VFMBMEM = 0x200,
    DEVICE_READY = 0x4000 /* CTRL_EXT: the virtual functions may start */
};

/* Sets up the PF's interrupt: a request from the virtual function sends a message with vector 5. */
static inline void bring_up_mailbox_interrupt(void)
{
    nicx_write32(NIC_GPIE, 0x10);
    nicx_write32(NIC_IVAR_MISC, 0x8500);
    nicx_write32(NIC_EIMS, 1 << 19);
}

/* Returns whether virtual function 0 sent a request, and clears it. */
static inline bool is_asked(void)
{
    if (!(nicx_read32(NIC_PFMBICR(0)) & 1))
        return false;
    nicx_write32(NIC_PFMBICR(0), 1);
    return true;
}

/* Takes the mailbox for the virtual function. */
static inline void take_mailbox(void)
{
    for (;;) {
        nicx_vf_write32(0, VFMAILBOX, VFU);
        if (nicx_vf_read32(0, VFMAILBOX) & VFU)
            return;
        nicx_wait();
    }
}

#endif
