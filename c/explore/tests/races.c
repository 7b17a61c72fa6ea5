/* `races MODE words..`, built with -fsanitize=thread: what orders two accesses to the same memory, and what doesn't. A
   mode with a name that starts with "no_" has a race. c/explore/check.py checks how each race is reported. */
#define _GNU_SOURCE
#include <pthread.h>
#include <semaphore.h>
#include <stdatomic.h>
#include <stdlib.h>
#include <string.h>

#include "corpus.h"
#include "modes.h"

#if defined(__GNUC__) && !defined(__clang__)
#pragma GCC diagnostic ignored "-Wtsan" /* fences are supported here */
#endif

static struct {
    unsigned value, other;
    uint8_t bytes[64];
} data;

static pthread_mutex_t lock = PTHREAD_MUTEX_INITIALIZER;
static pthread_rwlock_t shared = PTHREAD_RWLOCK_INITIALIZER;
static pthread_cond_t changed = PTHREAD_COND_INITIALIZER;
static pthread_barrier_t barrier;
static sem_t semaphore;
static nicx_mutex own_lock;
static atomic_int flag;
static bool is_set;

static pthread_t make(void *(*function)(void *), void *argument)
{
    pthread_t thread = 0;
    nicx_check(pthread_create(&thread, NULL, function, argument) == 0, "no thread");
    return thread;
}

static void join(pthread_t thread)
{
    pthread_join(thread, NULL);
}

/* --- two threads write, with or without a lock --- */

static void *write_both(void *unused)
{
    bool locks = !is("no_lock"), is_shared = is("rwlock") || is("no_writer"), is_own = is("own_lock");
    if (is_own)
        nicx_lock(&own_lock);
    else if (is("no_writer"))
        pthread_rwlock_rdlock(&shared);
    else if (is_shared)
        pthread_rwlock_wrlock(&shared);
    else if (locks)
        pthread_mutex_lock(&lock);
    data.value++;
    if (is_own)
        nicx_unlock(&own_lock);
    else if (is_shared)
        pthread_rwlock_unlock(&shared);
    else if (locks)
        pthread_mutex_unlock(&lock);
    return unused;
}

static void two_write(void)
{
    pthread_t one = make(write_both, NULL), two = make(write_both, NULL);
    join(one);
    join(two);
    nicx_check(data.value == 2, "an increment is lost");
}

/* --- one thread writes, and signals the other --- */

static void tell(void)
{
    if (is("release") || is("no_acquire"))
        atomic_store_explicit(&flag, 1, memory_order_release);
    if (is("no_release"))
        atomic_store_explicit(&flag, 1, memory_order_relaxed);
    if (is("fences")) {
        atomic_thread_fence(memory_order_release);
        atomic_store_explicit(&flag, 1, memory_order_relaxed);
    }
    if (is("exchange"))
        atomic_fetch_add_explicit(&flag, 1, memory_order_acq_rel);
    if (is("semaphore"))
        sem_post(&semaphore);
    if (is("barrier"))
        pthread_barrier_wait(&barrier);
    if (is("condition"))
        is_set = true;
}

static void *write_and_tell(void *unused)
{
    if (is("cond"))
        pthread_mutex_lock(&lock);
    data.value = 1;
    memset(data.bytes, 1, sizeof data.bytes);
    tell();
    if (is("cond")) {
        data.other = 1;
        pthread_cond_signal(&changed);
        pthread_mutex_unlock(&lock);
    }
    return unused;
}

static void hear(void)
{
    int order = is("no_acquire") || is("fences") ? memory_order_relaxed : memory_order_acquire;
    if (is("semaphore"))
        sem_wait(&semaphore);
    else if (is("barrier"))
        pthread_barrier_wait(&barrier);
    else if (is("condition"))
        nicx_wait_until(nicx_is_set, &is_set);
    else
        while (!atomic_load_explicit(&flag, order))
            continue;
    if (is("fences"))
        atomic_thread_fence(memory_order_acquire);
}

static void one_tells(void)
{
    sem_init(&semaphore, 0, 0);
    pthread_barrier_init(&barrier, NULL, 2);
    pthread_t other = make(write_and_tell, NULL);
    if (is("cond")) {
        pthread_mutex_lock(&lock);
        while (!data.other)
            pthread_cond_wait(&changed, &lock);
        pthread_mutex_unlock(&lock);
    } else if (is("join")) {
        join(other);
    } else if (!is("no_join")) {
        hear();
    }
    nicx_check(data.value == 1 || is("no_join"), "the other thread's store isn't there");
    uint8_t copied[64];
    memcpy(copied, data.bytes, sizeof copied);
    nicx_check(copied[63] == 1 || is("no_join"), "the other thread's store isn't there");
}

/* --- heap and stacks: freed memory may next belong to another thread --- */

static void *use_heap(void *unused)
{
    unsigned *own = malloc(sizeof *own);
    if (own)
        *own = 1;
    nicx_point();
    if (own)
        *own += 1;
    free(own);
    return unused;
}

static void heap(void)
{
    pthread_t one = make(use_heap, NULL), two = make(use_heap, NULL);
    join(one);
    join(two);
}

static void *free_it(void *memory)
{
    free(memory);
    return NULL;
}

static void *write_it(void *memory)
{
    *(unsigned *)memory = 2;
    return NULL;
}

static void free_used(void)
{
    unsigned *memory = malloc(sizeof *memory);
    pthread_t one = make(write_it, memory), two = make(free_it, memory);
    join(one);
    join(two);
}

static void stack(void)
{
    unsigned local = 0;
    pthread_t other = make(write_it, &local);
    if (!is("no_stack"))
        join(other);
    nicx_check(local <= 2, "another value");
}

/* --- the device: a store before a tail precedes the frame, and a done descriptor precedes reads of its bytes --- */

static void *post_buffer(void *unused)
{
    data.value = 1;
    nicx_put64(RX_RING, buffer(0));
    nicx_write32(NIC_RDT(0), 1);
    return unused;
}

static void device(void)
{
    uint8_t bytes[FRAME];
    make(post_buffer, NULL);
    if (is("no_done"))
        nicx_wait();
    else
        while (!is_done(RX_RING, 0, RX_DONE))
            nicx_wait();
    nicx_dma_read(buffer(0), bytes, sizeof bytes);
    nicx_check(is("no_done") || data.value == 1, "the other thread's store isn't there");
}

static void *write_late(void *unused)
{
    nicx_put64(RX_RING + 8, 0);
    return unused;
}

static void late(void)
{
    nicx_put64(RX_RING, buffer(0));
    make(write_late, NULL);
    nicx_write32(NIC_RDT(0), 1);
}

/* A handler runs after everything that precedes its message. A handler on a task runs between two of the task's
   steps. */
static void isr(void *unused)
{
    data.value++;
    nicx_write32(NIC_EIMC, CAUSE);
}

static void message(void)
{
    if (!is("no_message"))
        data.value = 1;
    nicx_write32(NIC_EIMS, CAUSE);
    if (is("no_message"))
        data.value = 1;
}

/* --- a timer's function is ordered after the call that arms it, but not with anything after that call --- */

static int timer;

static void fire(void *unused)
{
    (void)unused;
    data.value++;
}

static void arm(void)
{
    if (is("timer"))
        data.value = 1;
    nicx_arm(timer);
    if (is("no_timer"))
        data.value = 1;
}

/* --- the modes --- */

static const struct mode modes[] = {
    {"mutex", two_write},     {"no_lock", two_write},  {"own_lock", two_write},   {"rwlock", two_write},
    {"no_writer", two_write}, {"release", one_tells},  {"no_release", one_tells}, {"no_acquire", one_tells},
    {"fences", one_tells},    {"exchange", one_tells}, {"semaphore", one_tells},  {"barrier", one_tells},
    {"condition", one_tells}, {"cond", one_tells},     {"join", one_tells},       {"no_join", one_tells},
    {"heap", heap},           {"no_free", free_used},  {"stack", stack},          {"no_stack", stack},
    {"device", device},       {"no_done", device},     {"no_late", late},         {"message", message},
    {"no_message", message},  {"timer", arm},          {"no_timer", arm},
};

static void run(void *unused)
{
    run_mode(modes, sizeof modes / sizeof *modes);
}

static const char *bring_up(void)
{
    lend_blocks(2);
    bring_up_receive(0);
    bring_up_interrupt();
    nicx_write32(NIC_EIMC, CAUSE);
    return NULL;
}

static void begin(void)
{
    nicx_task("run", run, NULL);
    if (is("message") || is("no_message"))
        nicx_handler("isr", 0, 5, isr, NULL, NICX_BESIDE);
    if (is("message") || is("no_message"))
        nicx_write32(NIC_EICS, CAUSE);
    if (is("timer") || is("no_timer"))
        timer = nicx_timer("timer", fire, NULL, 20);
    frames_come(1);
}

static const char *end(void)
{
    return NULL;
}

MODES("", .name = "races", .fifo = 8, .blocks = 8)
