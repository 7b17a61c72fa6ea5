/* A driver with one buffer refills it for the next frame before the device reports the first frame as sent. */
#include "corpus.h"

enum { FRAMES = 2 };

static const char *bring_up(void)
{
    lend_blocks(1);
    bring_up_transmit();
    return NULL;
}

static void send(void *unused)
{
    for (unsigned k = 0; k < FRAMES; k++) {
#ifdef FIXED
        while (k && !is_done(TX_RING, k - 1, TX_DONE))
            nicx_wait();
#endif
        fill_buffer(0, k);
        put_transmit(k, 0, EOP_RS);
        nicx_write32(NIC_TDT(0), k + 1);
    }
}

static void begin(void)
{
    nicx_task("send", send, NULL);
}

static const char *end(void)
{
    return went_out(FRAMES);
}

DRIVER(.name = "buffer_again_before_dd")
