/* `reported MODE words..`: scenarios for c/explore/check_reported.py: parts left out by shrinking, repeating points,
   the source line of each point, and a changed driver. */
#include <stdlib.h>
#include <string.h>

#include "corpus.h"
#include "modes.h"

enum { FRAMES = 6, LINKS = 4 };

static nicx_mutex named = {.name = "the ring"}, plain_lock;
static nicx_mutex *far_lock;
static bool ready, wants[2];
static unsigned got, count, seen;

static const char *bring_up(void)
{
    lend_blocks(8);
    bring_up_receive(7);
    bring_up_interrupt();
    return NULL;
}

/* --- a driver that loses a frame, with other tasks that don't matter --- */

static void take(void *unused)
{
    for (unsigned slot = 0; slot < 7;) {
        nicx_wait();
        for (; slot < 7 && is_done(RX_RING, slot, RX_DONE); slot++)
            got++;
    }
}

/* Misses a frame that arrives while it takes another one. */
static void take_badly(void *unused)
{
    for (unsigned slot = 0; slot < 7;) {
        nicx_wait();
        for (; slot < 7 && is_done(RX_RING, slot, RX_DONE); slot++) {
            uint32_t head = nicx_read32(NIC_RDH(0));
            got++;
            if (nicx_read32(NIC_RDH(0)) != head)
                slot++;
        }
    }
}

static void watch(void *unused)
{
    for (unsigned k = 0; k < 4; k++) {
        nicx_read32(NIC_STATUS);
        nicx_pause();
    }
}

static void count_up(void *unused)
{
    unsigned old = count;
    nicx_point();
    count = old + 1;
}

static void isr(void *unused)
{
    nicx_read32(NIC_EICR);
}

static void begin_much(void)
{
    nicx_service("take", is("fixed") ? take : take_badly, NULL);
    nicx_task("watch", watch, NULL);
    nicx_task("count", count_up, NULL);
    nicx_handler("isr", 0, 5, isr, NULL, NICX_ANYWHERE);
    frames_come(FRAMES);
    for (unsigned k = 0; k < LINKS; k++)
        nicx_link_change(true);
}

/* --- an endless schedule --- */

/* Each task sets its own flag and waits until the other task's flag is clear. If both are set, both wait forever. */
static void polite(void *argument)
{
    bool *mine = argument, *other = mine == wants ? wants + 1 : wants;
    *mine = true;
    nicx_point();
    while (*other) {
        nicx_write32(NIC_EIMC, 1);
        nicx_wait();
    }
    *mine = false;
}

static void begin_round(void)
{
    nicx_task("one", polite, &wants[0]);
    nicx_task("other", polite, &wants[1]);
    nicx_task("watch", watch, NULL);
    frames_come(2);
}

/* --- names and lines: check_reported.py expects the words after "here:" for the line that they are on --- */

static void helper(void)
{
    nicx_write32(NIC_EIMC, 1); /* here: helper */
    nicx_write32(NIC_EIMC, 2); /* here: helper */
}

static bool is_ready(void *argument)
{
    return *(bool *)argument;
}

static void name(void *unused)
{
    nicx_lock(&named);                 /* here: locks the ring */
    nicx_lock(&plain_lock);            /* here: locks plain_lock */
    nicx_lock(far_lock);               /* here: locks far_lock */
    nicx_unlock(far_lock);             /* here: unlocks far_lock */
    nicx_unlock(&plain_lock);          /* here: unlocks plain_lock */
    nicx_unlock(&named);               /* here: unlocks the ring */
    nicx_wait_until(is_ready, &ready); /* here: waited until is_ready(&ready) */
    nicx_read32(NIC_STATUS);           /* here: r STATUS = 0x00080000 */
    helper();                          /* here: w EIMC */
    uint8_t bytes[60];
    nicx_dma_read(0x800, bytes, sizeof bytes); /* here: peek 0x00800, 60 bytes */
    nicx_check(false, "the end");
}

static void make_ready(void *unused)
{
    nicx_point();
    ready = true;
}

static void begin_names(void)
{
    if (!far_lock)
        far_lock = calloc(1, sizeof *far_lock);
    nicx_task("name", name, NULL);
    nicx_task("ready", make_ready, NULL);
}

/* --- a changed driver --- */

static void reads_twice(void *unused)
{
    seen = nicx_read32(NIC_RDH(0));
    if (is("mended"))
        nicx_write32(NIC_EIMC, CAUSE);
    nicx_check(seen == nicx_read32(NIC_RDH(0)), "the head moved");
}

static void begin_twice(void)
{
    nicx_task(is("renamed") ? "another" : "reader", reads_twice, NULL);
    if (!is("alone"))
        nicx_task("count", count_up, NULL);
    frames_come(is("frameless") ? 0 : 1);
}

static void begin(void)
{
    ready = wants[0] = wants[1] = false;
    got = count = seen = 0;
    if (is("much") || is("fixed") || is("counted"))
        begin_much();
    else if (is("round"))
        begin_round();
    else if (is("names"))
        begin_names();
    else
        begin_twice();
}

static const char *end(void)
{
    if (is("much") || is("fixed"))
        return got == nicx_came() ? NULL : "a frame is lost";
    return is("counted") && got != FRAMES ? "a frame is lost" : NULL;
}

MODES("much", .name = "reported", .points = 400)
