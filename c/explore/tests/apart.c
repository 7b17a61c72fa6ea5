/* `apart MODE words..`: two tasks that each send on a queue, and count under a lock. c/explore/check.py checks that the
   exhaustive search, if the scenario says that it is race-free (`free`), runs fewer schedules and reaches the same
   verdict. With a bug (`bug`, `bug-free`) the second task writes the first one's tail. */
#include <string.h>

#include "corpus.h"
#include "modes.h"

enum { QUEUES = 2 };

static const unsigned queues[QUEUES] = {0, 1};
static nicx_mutex lock;
static unsigned count;

static uint64_t ring(unsigned queue)
{
    return 0x0800 + 0x80 * (uint64_t)queue;
}

static const char *bring_up(void)
{
    lend_blocks(QUEUES);
    for (unsigned queue = 0; queue < QUEUES; queue++) {
        nicx_write32(NIC_TDBAL(queue), (uint32_t)ring(queue));
        nicx_write32(NIC_TDLEN(queue), 16 * SLOTS);
        nicx_write32(NIC_TXDCTL(queue), ENABLE);
        fill_buffer(queue, queue);
    }
    nicx_settle();
    nicx_write32(NIC_DMATXCTL, NIC_DMATXCTL_TE);
    return NULL;
}

static void send(void *argument)
{
    unsigned queue = *(const unsigned *)argument;
    nicx_put_desc(ring(queue), 0, nic_tx_desc(buffer(queue), FRAME, FRAME, NIC_TXD_EOP | NIC_TXD_RS));
    nicx_write32(NIC_TDT(strncmp(mode, "bug", 3) != 0 ? queue : 0), 1);
    nicx_lock(&lock);
    count++;
    nicx_unlock(&lock);
}

static void begin(void)
{
    memset(&lock, 0, sizeof lock);
    count = 0;
    nicx_task("one", send, (void *)(uintptr_t)&queues[0]);
    nicx_task("other", send, (void *)(uintptr_t)&queues[1]);
}

static const char *end(void)
{
    uint8_t frame[FRAME];
    nic_outcome outcome;
    for (unsigned k = 0; k < QUEUES; k++)
        if (nic_collect(nicx_device(), frame, sizeof frame, &outcome) != NIC_FRAME)
            return "a frame was never transmitted";
    return count == QUEUES ? NULL : "a count is lost";
}

MODES("fine", .name = "apart", .fifo = 4, .blocks = 8, .queues = QUEUES, .race_free = strstr(mode, "free") != NULL)
