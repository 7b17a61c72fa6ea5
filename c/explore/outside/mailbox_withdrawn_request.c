/* The PF's driver and a virtual function. The virtual function requests the number of its queues, and its address,
   through the mailbox. If the first answer is late, it assumes one queue, resets itself, and continues.

   The PF driver's answer to the withdrawn request overwrites the next request. With -DFIXED the PF's driver drops its
   answer if another request has arrived. */
#include <string.h>

#include "../driver.h"

enum { VF = 0, VECTOR = 1, GET_QUEUES = 0x10, GET_ADDRESS = 0x11, NOT_KNOWN = 0xFF, PATIENCE = 8 };

static const uint32_t queues_of_pool = 2, address = 0x02000011;

static struct {
    bool asked;           /* the PF's driver: the virtual function made a request */
    uint32_t queues, mac; /* the virtual function: the PF driver's answers */
} driver;

/* --- the PF's driver --- */

static void isr(void *unused)
{
    nicx_write32(NIC_EICR, NIC_EICR_MAILBOX);
    driver.asked = true;
}

static bool is_asked(void *unused)
{
    return driver.asked;
}

static void host_takes(void)
{
    for (;;) {
        nicx_write32(NIC_PFMAILBOX(VF), NIC_PFMAILBOX_PFU);
        if (nicx_read32(NIC_PFMAILBOX(VF)) & NIC_PFMAILBOX_PFU)
            return;
        nicx_wait();
    }
}

/* Reads a request, if there is one. The PF's driver then owns the request. It keeps the mailbox in any case. */
static bool host_reads(uint32_t *request)
{
    if (!(nicx_read32(NIC_PFMBICR(0)) & NIC_PFMBICR_VFREQ_IS(1 << VF)))
        return false;
    nicx_write32(NIC_PFMBICR(0), NIC_PFMBICR_VFREQ_IS(1 << VF));
    *request = nicx_read32(NIC_PFMBMEM(16 * VF));
    return true;
}

/* Returns the answer to a request, from the PF driver's own tables and registers. */
static uint32_t host_finds(uint32_t request)
{
    switch (request) {
    case GET_QUEUES: return (nicx_read32(NIC_GCR_EXT) & NIC_GCR_EXT_VT_MODE) == 3 ? queues_of_pool : 4;
    case GET_ADDRESS: return nicx_read32(NIC_RAL(1));
    default: return NOT_KNOWN;
    }
}

static void host(void *unused)
{
    uint32_t request;
    for (;;) {
        nicx_wait_until(is_asked, NULL);
        driver.asked = false;
        host_takes();
        while (host_reads(&request)) {
            nicx_write32(NIC_PFMAILBOX(VF), NIC_PFMAILBOX_ACK);
            uint32_t answer = host_finds(request);
            host_takes();
#ifdef FIXED
            if (nicx_read32(NIC_PFMBICR(0)) & NIC_PFMBICR_VFREQ_IS(1 << VF))
                continue;
#endif
            nicx_write32(NIC_PFMBMEM(16 * VF), answer);
            nicx_write32(NIC_PFMAILBOX(VF), NIC_PFMAILBOX_STS);
            host_takes();
        }
        nicx_write32(NIC_PFMAILBOX(VF), 0);
    }
}

/* --- the virtual function's driver --- */

/* Takes the mailbox. What was sent before no longer matters, and the read discards it. */
static void function_asks(uint32_t request)
{
    for (;;) {
        nicx_vf_write32(VF, NIC_VFMAILBOX, NIC_PVFMAILBOX_VFU);
        if (nicx_vf_read32(VF, NIC_VFMAILBOX) & NIC_PVFMAILBOX_VFU)
            break;
        nicx_wait();
    }
    nicx_vf_write32(VF, NIC_VFMBMEM(0), request);
    nicx_vf_write32(VF, NIC_VFMAILBOX, NIC_PVFMAILBOX_REQ);
}

static bool is_answered(void)
{
    return nicx_vf_read32(VF, NIC_VFMAILBOX) & NIC_PVFMAILBOX_PFSTS;
}

static void function(void *unused)
{
    bool answered = false;
    function_asks(GET_QUEUES);
    for (unsigned k = 0; k < PATIENCE && !answered; k++) {
        nicx_pause();
        answered = is_answered();
    }
    if (answered) {
        driver.queues = nicx_vf_read32(VF, NIC_VFMBMEM(0));
    } else {
        driver.queues = 1;
        nicx_vf_write32(VF, NIC_VFCTRL, NIC_PVFCTRL_RST);
    }
    function_asks(GET_ADDRESS);
    while (!is_answered())
        nicx_wait();
    driver.mac = nicx_vf_read32(VF, NIC_VFMBMEM(0));
}

/* --- the scenario --- */

static const char *bring_up(void)
{
    nicx_write32(NIC_GCR_EXT, NIC_GCR_EXT_VT_MODE_IS(3));
    nicx_write32(NIC_RAL(1), address);
    nicx_write32(NIC_GPIE, NIC_GPIE_MULTIPLE_MSIX);
    nicx_write32(NIC_IVAR_MISC, NIC_IVAR_MISC_INT_ALLOC_1_IS(VECTOR) | NIC_IVAR_MISC_INT_ALLOC_VAL_1);
    nicx_write32(NIC_EIMS, NIC_EIMS_MAILBOX);
    nicx_write32(NIC_CTRL_EXT, NIC_CTRL_EXT_PFRSTD);
    if (!(nicx_vf_read32(VF, NIC_VFMAILBOX) & NIC_PVFMAILBOX_RSTD))
        return "the virtual function never saw that the device is ready";
    return NULL;
}

static void begin(void)
{
    memset(&driver, 0, sizeof driver);
    nicx_service("host", host, NULL);
    nicx_task("function", function, NULL);
    nicx_handler("isr", 0, VECTOR, isr, NULL, NICX_BESIDE);
}

static const char *end(void)
{
    uint32_t word = 0;
    if (driver.queues != 1 && driver.queues != queues_of_pool)
        return "the virtual function never learned its number of queues";
    if (driver.mac != address)
        return "the virtual function never learned its address";
    nic_vf_peek32(nicx_device(), VF, NIC_VFMAILBOX, &word);
    if (word & (NIC_PVFMAILBOX_VFU | NIC_PVFMAILBOX_PFU))
        return "the mailbox is still locked";
    nic_peek32(nicx_device(), NIC_PFMBICR(0), &word);
    return word ? "a request was never read" : NULL;
}

DRIVER(.name = "mailbox_withdrawn_request", .vfs = 1, .blocks = 1)
