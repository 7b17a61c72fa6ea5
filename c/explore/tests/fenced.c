/* `fenced MODE words..`, built with -fsanitize=thread: races that depend on what a thread's fences ordered.
   c/explore/check_checkpoints.py compares each mode with and without checkpoints: a fence of an earlier schedule would
   hide a race. */
#include <stdatomic.h>

#include "corpus.h"
#include "modes.h"

#if defined(__GNUC__) && !defined(__clang__)
#pragma GCC diagnostic ignored "-Wtsan" /* fences are supported here */
#endif

enum { POINTS = 6 };

static unsigned value;
static atomic_int flag;

static void go_on(void)
{
    for (int k = 0; k < POINTS; k++)
        nicx_point();
}

static void tell(int order)
{
    atomic_store_explicit(&flag, 1, order);
}

static bool is_told(int order)
{
    return atomic_load_explicit(&flag, order);
}

static void show(void)
{
    nicx_write32(NIC_EIMC, value);
}

/* One task writes and tells the other, with or without a fence before that. */
static void released(void)
{
    go_on();
    value = 1;
    if (nicx_choose(2))
        atomic_thread_fence(memory_order_release);
    nicx_point();
    tell(memory_order_relaxed);
}

static void hears(void)
{
    if (is_told(memory_order_acquire))
        show();
}

/* The other task has a fence, after a load that may come too early for it, or not at all. */
static void written(void)
{
    go_on();
    value = 1;
    tell(memory_order_release);
}

static void acquired(void)
{
    bool was_told = nicx_choose(2) && is_told(memory_order_relaxed);
    go_on();
    atomic_thread_fence(memory_order_acquire);
    if (is_told(memory_order_relaxed) || was_told)
        show();
}

static const struct mode ones[] = {{"release", released}, {"acquire", written}};
static const struct mode others[] = {{"release", hears}, {"acquire", acquired}};

static void one(void *unused)
{
    (void)unused;
    run_mode(ones, sizeof ones / sizeof *ones);
}

static void other(void *unused)
{
    (void)unused;
    run_mode(others, sizeof others / sizeof *others);
}

static const char *bring_up(void)
{
    lend_blocks(2);
    return NULL;
}

static void begin(void)
{
    nicx_task("one", one, NULL);
    nicx_task("other", other, NULL);
}

static const char *end(void)
{
    return NULL;
}

MODES("release", .name = "fenced", .fifo = 8, .blocks = 8)
