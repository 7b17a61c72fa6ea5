/* A receiver hands frames to a worker through a ring, and both threads access its index as plain memory. It works in
   every order of their steps, as long as the compiler and the processor keep the order of the stores; C promises
   neither. The search reports a data race if it sees each access, that is, if the driver is built with
   -fsanitize=thread. A correct ring stores the index with release, and loads it with acquire. */
#include "corpus.h"

enum { FRAMES = 1, HANDED = 4 };

static struct {
    unsigned next;
    struct {
        unsigned lengths[HANDED];
        unsigned head; /* written by the receiver */
        unsigned tail; /* written by the worker */
    } ring;
    unsigned worked;
} driver;

static void put_head(unsigned head)
{
#ifdef FIXED
    __atomic_store_n(&driver.ring.head, head, __ATOMIC_RELEASE);
#else
    driver.ring.head = head;
#endif
}

static unsigned get_head(void)
{
#ifdef FIXED
    return __atomic_load_n(&driver.ring.head, __ATOMIC_ACQUIRE);
#else
    return driver.ring.head;
#endif
}

static void receive(void *unused)
{
    for (unsigned head = 0; head < FRAMES; head++) {
        while (!is_done(RX_RING, driver.next, RX_DONE))
            nicx_wait();
        driver.ring.lengths[head % HANDED] = nicx_get64(RX_RING + 16 * driver.next++ + 8) >> 32 & 0xFFFF;
        nicx_point();
        put_head(head + 1);
    }
}

static void work(void *unused)
{
    while (driver.worked < FRAMES) {
        while (driver.ring.tail == get_head())
            nicx_wait();
        nicx_check(driver.ring.lengths[driver.ring.tail++ % HANDED] == FRAME, "a length is wrong");
        driver.worked++;
    }
}

static const char *bring_up(void)
{
    lend_blocks(FRAMES);
    bring_up_receive(FRAMES);
    return NULL;
}

static void begin(void)
{
    memset(&driver, 0, sizeof driver);
    nicx_task("receive", receive, NULL);
    nicx_task("work", work, NULL);
    frames_come(FRAMES);
}

static const char *end(void)
{
    return driver.worked == FRAMES ? NULL : "a frame was never processed";
}

DRIVER(.name = "ring_index_race", .fifo = 8)
