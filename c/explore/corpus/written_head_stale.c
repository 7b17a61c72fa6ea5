/* A driver doesn't clear the location of the written-back head before it sends. A value left there by an earlier use of
   the queue counts as completed frames. */
#include "corpus.h"

enum { FRAMES = 2, EARLIER = 5 };

static const char *bring_up(void)
{
    lend_blocks(1);
    nicx_write32(NIC_TDWBAL(0), WRITTEN_HEAD | 1);
    bring_up_transmit();
    nicx_put64(WRITTEN_HEAD, EARLIER);
    return NULL;
}

static unsigned written_head(void)
{
    return (unsigned)nicx_get64(WRITTEN_HEAD) & 0xFFFF;
}

static void send(void *unused)
{
#ifdef FIXED
    nicx_put64(WRITTEN_HEAD, 0);
#endif
    for (unsigned k = 0; k < FRAMES; k++) {
        while (written_head() < k)
            nicx_wait();
        fill_buffer(0, k);
        put_transmit(k, 0, EOP_RS);
        nicx_write32(NIC_TDT(0), k + 1);
    }
}

static void begin(void)
{
    nicx_task("send", send, NULL);
}

static const char *end(void)
{
    return went_out(FRAMES);
}

DRIVER(.name = "written_head_stale")
