/* Only every fourth descriptor requests a report, and the driver always checks the one in slot 3. So it reuses the
   buffers of later frames too early. */
#include "corpus.h"

enum { FRAMES = 12, FOUR = 4 };

static const char *bring_up(void)
{
    lend_blocks(FOUR);
    bring_up_transmit();
    return NULL;
}

/* Waits for the previous four frames, which use the same buffers, to go out. */
static void wait_for_the_four_before(unsigned first)
{
    if (!first)
        return;
#ifndef FIXED
    unsigned slot = FOUR - 1;
#else
    unsigned slot = (first - 1) % SLOTS;
#endif
    while (!is_done(TX_RING, slot, TX_DONE))
        nicx_wait();
}

static void send(void *unused)
{
    for (unsigned first = 0; first < FRAMES; first += FOUR) {
        wait_for_the_four_before(first);
        for (unsigned k = first; k < first + FOUR; k++) {
            fill_buffer(k % FOUR, k);
            put_transmit(k % SLOTS, k % FOUR, k % FOUR == FOUR - 1 ? EOP_RS : EOP);
        }
        nicx_write32(NIC_TDT(0), (first + FOUR) % SLOTS);
    }
}

static void begin(void)
{
    nicx_task("send", send, NULL);
}

static const char *end(void)
{
    return went_out(FRAMES);
}

DRIVER(.name = "rs_on_every_fourth")
