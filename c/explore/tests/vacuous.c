/* `vacuous MODE words..`: scenarios in which some part never runs. c/explore/check.py checks what is reported. */
#include <stdio.h>
#include <string.h>

#include "corpus.h"
#include "modes.h"

static bool scheduled, never;

static const char *bring_up(void)
{
    lend_blocks(2);
    bring_up_receive(is("slots") ? 0 : 2);
    bring_up_interrupt();
    if (is("vector") || is("all"))
        nicx_write32(NIC_IVAR(0), NIC_IVAR_INT_ALLOC_0_IS(6) | NIC_IVAR_INT_ALLOC_VAL_0);
    if (is("vector"))
        nicx_write32(NIC_EIMS, CAUSE | CAUSE << 1);
    if (is("filter") || is("all"))
        nicx_write32(NIC_FCTRL, 0);
    if (is("queue")) {
        nicx_write32(NIC_TXDCTL(0), ENABLE);
        nicx_settle();
    }
    return NULL;
}

static void poll(void *unused)
{
    for (;;) {
        if (is("waits"))
            while (!never)
                nicx_wait();
        nicx_wait_until(nicx_is_set, &scheduled);
        scheduled = false;
        nicx_write32(NIC_EIMS, CAUSE);
    }
}

static void other(void *unused)
{
    nicx_read32(NIC_STATUS);
}

static void isr(void *unused)
{
    scheduled = true;
}

static void begin(void)
{
    scheduled = never = false;
    nicx_service("poll", poll, NULL);
    nicx_service("other", other, NULL);
    nicx_handler("isr", 0, 5, isr, NULL, NICX_ANYWHERE);
    frames_come(is("slots") ? 3 : 2);
    if (is("link"))
        nicx_link_change(true);
}

static const char *end(void)
{
    return NULL;
}

MODES("fine", .name = "vacuous", .allowed = is("faults") ? NICX_FAULTS : 0)
