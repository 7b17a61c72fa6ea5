/* `stop_wake MODE words..`, built with -fsanitize=thread: a sender stops its queue when no descriptor is free, and then
   checks once more; a cleaner frees a descriptor, and wakes a stopped queue. Each stores to its own flag and then loads
   the other task's flag. So each needs a full barrier between its store and its load, like the smp_mb used with Linux's
   netif_stop_queue and netif_wake_queue. Without it, both may see the old value, and the queue stays stopped forever.
   With FIXED it is correct.

   flags: no barrier; release: a store barrier, which isn't enough; lent: the cleaner also writes a descriptor, and
   publishes it with nicx_wmb, which is only a store barrier too. */
#include <stdatomic.h>

#include "corpus.h"
#include "modes.h"

#if defined(__GNUC__) && !defined(__clang__)
#pragma GCC diagnostic ignored "-Wtsan" /* fences are supported here */
#endif

static atomic_bool is_stopped;
static atomic_int free_slots;
static bool was_sent;

static void barrier(void)
{
#ifdef FIXED
    atomic_thread_fence(memory_order_seq_cst);
#else
    if (is("release"))
        atomic_thread_fence(memory_order_acq_rel);
#endif
}

static bool is_awake(void *unused)
{
    (void)unused;
    return !atomic_load_explicit(&is_stopped, memory_order_relaxed);
}

static void send(void *unused)
{
    (void)unused;
    atomic_store_explicit(&is_stopped, true, memory_order_relaxed);
    barrier();
    if (atomic_load_explicit(&free_slots, memory_order_acquire))
        atomic_store_explicit(&is_stopped, false, memory_order_relaxed);
    nicx_wait_until(is_awake, NULL);
    was_sent = true;
}

static void clean(void *unused)
{
    (void)unused;
    if (is("lent")) {
        nicx_put64(BUFFERS, 1);
        nicx_wmb();
    }
    atomic_store_explicit(&free_slots, 1, memory_order_release);
    barrier();
    if (atomic_load_explicit(&is_stopped, memory_order_relaxed))
        atomic_store_explicit(&is_stopped, false, memory_order_relaxed);
}

static const char *bring_up(void)
{
    lend_blocks(1);
    return NULL;
}

static void begin(void)
{
    nicx_task("send", send, NULL);
    nicx_task("clean", clean, NULL);
}

static const char *end(void)
{
    return was_sent ? NULL : "the queue stays stopped, although a descriptor is free";
}

MODES("flags", .name = "stop_wake", .blocks = 4)
