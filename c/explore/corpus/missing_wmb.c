/* Without a barrier, the write of a tail overtakes the store of the descriptor that it covers. The device fetches the
   slot's old contents. */
#include "corpus.h"

enum { FRAMES = 2 };

static const char *bring_up(void)
{
    lend_blocks(FRAMES);
    bring_up_transmit();
    for (unsigned k = 0; k < FRAMES; k++)
        fill_buffer(k, k);
    return NULL;
}

static void send(void *unused)
{
    for (unsigned k = 0; k < FRAMES; k++) {
        put_transmit(k, k, EOP_RS);
#ifdef FIXED
        nicx_wmb();
#endif
        nicx_write32(NIC_TDT(0), k + 1);
    }
}

static void begin(void)
{
    nicx_task("send", send, NULL);
}

static const char *end(void)
{
    return went_out(FRAMES);
}

DRIVER(.name = "missing_wmb", .memory = NICX_WEAK)
