/* `named MODE words..`, built with -fsanitize=thread: failures whose messages and pages name what the driver's author
   needs to know: the call that led to a helper, the slot of a ring, the call that took memory back, the store of an
   address, a signal that woke no thread. */
#define _GNU_SOURCE
#include <pthread.h>
#include <stdatomic.h>
#include <stdlib.h>

#include "corpus.h"
#include "modes.h"

#if defined(__GNUC__) && !defined(__clang__)
#pragma GCC diagnostic ignored "-Wtsan" /* fences are supported here */
#endif

static atomic_int ready, count;
static _Atomic uint8_t owner;
static unsigned flag;
static int watchdog;
static pthread_mutex_t lock = PTHREAD_MUTEX_INITIALIZER;
static pthread_cond_t changed = PTHREAD_COND_INITIALIZER;

struct ring {
    unsigned next;
    pthread_mutex_t lock;
};

static struct ring *ring;

/* --- atomic operations and their effects --- */

static void atomics(void)
{
    int seen = atomic_load_explicit(&ready, memory_order_relaxed);
    atomic_store_explicit(&ready, seen + 1, memory_order_release);
    atomic_thread_fence(memory_order_seq_cst);
    atomic_fetch_add_explicit(&count, 70000, memory_order_acq_rel);
    uint8_t nobody = 7;
    if (!atomic_compare_exchange_strong(&owner, &nobody, 1) && atomic_compare_exchange_strong(&owner, &nobody, 1))
        nicx_fail("shown");
}

/* --- a signal while no thread is waiting --- */

static void signals(void)
{
    pthread_cond_signal(&changed);
    pthread_cond_broadcast(&changed);
    nicx_fail("shown");
}

/* --- one-line helpers: for a register, a flag, a lock --- */

__attribute__((noinline)) static unsigned get(const unsigned *at)
{
    return *at;
}

__attribute__((noinline)) static void set(unsigned *at, unsigned value)
{
    *at = value;
}

static void read_flag(void)
{
    nicx_check(get(&flag) < 2, "another value");
}

static void write_flag(void)
{
    set(&flag, 1);
}

__attribute__((noinline)) static void take(pthread_mutex_t *it)
{
    pthread_mutex_lock(it);
}

static void lock_one_way(void)
{
    take(&ring->lock);
    take(&lock);
    pthread_mutex_unlock(&lock);
    pthread_mutex_unlock(&ring->lock);
}

static void lock_the_other(void)
{
    take(&lock);
    take(&ring->lock);
    pthread_mutex_unlock(&ring->lock);
    pthread_mutex_unlock(&lock);
}

/* --- a race with freed memory --- */

static void use_ring(void)
{
    ring->next++;
}

static void write_ring(void)
{
    ring->next = 1;
}

/* --- packet memory: a slot that two threads write, and a ring that was taken back --- */

static void write_slot(void)
{
    nicx_put64(RX_RING + 24, 1);
}

static void take_back(void)
{
    nicx_arm(watchdog);
    nicx_take(RX_RING / NIC_BLOCK_BYTES);
}

static void watch(void *unused)
{
    nicx_get64(RX_RING + 24);
}

/* --- the device is given memory that isn't lent: by a descriptor, a tail, a ring's base --- */

__attribute__((noinline)) static void put(uint64_t at, uint64_t value)
{
    nicx_put64(at, value);
}

static void give_buffer(void)
{
    put(RX_RING, 0x7000);
    nicx_write32(NIC_RDT(0), 1);
}

static void move_tail(void)
{
    put(RX_RING, buffer(0));
    nicx_write32(NIC_RDT(0), 2);
}

static void turn_queue(uint32_t on)
{
    nicx_write32(NIC_RXDCTL(0), on);
    while ((nicx_read32(NIC_RXDCTL(0)) & ENABLE) != on)
        nicx_wait();
}

static void move_ring(void)
{
    turn_queue(0);
    nicx_write32(NIC_RDBAL(0), 0x7000);
    turn_queue(ENABLE);
    nicx_write32(NIC_RDT(0), 1);
}

/* --- a delay by nicx_wait, in an OS function --- */

__attribute__((noinline)) static void delay(void)
{
    for (int k = 0; k < 3; k++)
        nicx_wait();
}

static void delays(void)
{
    delay();
    count++;
}

/* --- the modes --- */

static const struct mode modes[] = {
    {"atomics", atomics},   {"signals", signals}, {"helper", read_flag}, {"locks", lock_one_way},
    {"heap", use_ring},     {"slot", write_slot}, {"lent", take_back},   {"delay", delays},
    {"given", give_buffer}, {"moved", move_tail}, {"based", move_ring},
};

/* The function that the second task runs in each mode. */
static const struct mode others[] = {
    {"helper", write_flag},
    {"locks", lock_the_other},
    {"heap", write_ring},
    {"slot", write_slot},
};

static void receive(void *unused)
{
    run_mode(modes, sizeof modes / sizeof *modes);
}

static void stop(void *unused)
{
    run_mode(others, sizeof others / sizeof *others);
}

static const char *bring_up(void)
{
    lend_blocks(2);
    bring_up_receive(0);
    ring = calloc(1, sizeof *ring);
    return ring ? NULL : "out of memory";
}

static void begin(void)
{
    nicx_task("receive", receive, NULL);
    nicx_task("stop", stop, NULL);
    watchdog = nicx_timer("watchdog", watch, NULL, 20);
    if (is("given") || is("moved") || is("based"))
        frames_come(2);
}

static const char *end(void)
{
    return NULL;
}

MODES("", .name = "named", .fifo = 8, .blocks = 8)
