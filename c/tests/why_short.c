/* Tests nic_why when memory runs out, in turn at each allocation. nic_why still reports what registers show, the last
   line says what is missing, and nothing changes. */
#include <string.h>

#include "check.h"
#include "short.h"

enum { ROOM = 4096, MOST = 2000 };

static const char whole[] = "rx: 1 frame is waiting; the oldest is for queue 0\n"
                            "rx 0: RXDCTL[0].ENABLE 1: a disable request is pending, but no `qstep rx 0` followed\n"
                            "rx 0: RDH[0] 0, RDT[0] 0: head and tail meet, so the device owns no slot until the "
                            "driver advances the tail\n"
                            "rx 0: SRRCTL[0].Drop_En 0: a frame that finds no slot waits\n"
                            "int pf: LSC: the mask is 0\n"
                            "int pf: RTxQ[0]: already reported; neither cause nor mask has been 0 since\n";
static const char part[] =
    "rx 0: RDH[0] 0, RDT[0] 0: head and tail meet, so the device owns no slot until the "
    "driver advances the tail\n"
    "int pf: LSC: the mask is 0\n"
    "out of memory for a copy: waiting frames, requested enables and reported causes are unknown\n";

static void set_up(nic *n)
{
    nic_outcome outcome;
    uint8_t frame[60] = {2, 0, 0, 0, 0, 1};
    ANSWERS(NIC_DONE, nic_open(n, 1, 8, 4));
    ANSWERS(NIC_DONE, nic_lend_all(n));
    nic_write32(n, NIC_RXCTRL, NIC_RXCTRL_RXEN);
    nic_write32(n, NIC_FCTRL, NIC_FCTRL_UPE);
    nic_write32(n, NIC_GPIE, NIC_GPIE_MULTIPLE_MSIX);
    nic_write32(n, NIC_RDLEN(0), 128);
    nic_write32(n, NIC_SRRCTL(0), NIC_SRRCTL_DESCTYPE_IS(1) | NIC_SRRCTL_BSIZEPACKET_IS(2));
    nic_write32(n, NIC_RXDCTL(0), NIC_RXDCTL_ENABLE);
    ANSWERS(NIC_DONE, nic_queue_step(n, false, 0, &outcome));
    nic_write32(n, NIC_RXDCTL(0), 0);
    ANSWERS(NIC_DONE, nic_arrive(n, frame, sizeof frame, &outcome));
    nic_write32(n, NIC_IVAR(0), NIC_IVAR_INT_ALLOC_VAL_0);
    nic_write32(n, NIC_EIMS, 1);
    nic_write32(n, NIC_EICS, 1 | NIC_EICS_LSC);
    ANSWERS(NIC_MESSAGE, nic_int_step(n, 0, &outcome));
}

int main(void)
{
    nic n;
    char text[ROOM];
    long refused = 0;
    set_up(&n);
    nic_why(&n, text, sizeof text);
    CHECK(!strcmp(text, whole));
    for (bool is_short = true; is_short; refused++) {
        CHECK(refused < MOST);
        left = refused;
        size_t length = nic_why(&n, text, sizeof text);
        left = -1;
        is_short = strcmp(text, whole) != 0;
        CHECK(!is_short || !strcmp(text, part));
        CHECK(length == strlen(text));
        nic_why(&n, text, sizeof text);
        CHECK(!strcmp(text, whole));
    }
    nic_close(&n);
    CHECK(refused > 3);
    printf("%ld allocations refused\n", refused - 1);
    return 0;
}
