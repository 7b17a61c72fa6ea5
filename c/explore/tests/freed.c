/* `freed MODE words..`, built with -fsanitize=thread: memory from malloc that is used after it was freed although a
   lock orders the free and the use, that is freed twice, or that is accessed out of bounds. With FIXED each mode is
   correct. The mode "kinds", which uses every call that allocates or frees memory, is always correct. */
#define _GNU_SOURCE
#include <pthread.h>
#include <stdatomic.h>
#include <stdlib.h>
#include <string.h>

#include "modes.h"

#ifdef FIXED
enum { IS_FIXED = 1 };
#else
enum { IS_FIXED = 0 };
#endif

struct ring {
    pthread_mutex_t lock;
    unsigned next, count;
    uint64_t slots[4];
};

static pthread_mutex_t lock = PTHREAD_MUTEX_INITIALIZER;
static struct ring *_Atomic ring;
static atomic_int readers;
static int watchdog;
static void *kept; /* allocated in bring_up, so it exists in each schedule */

static struct ring *made(void)
{
    struct ring *it = calloc(1, sizeof *it);
    nicx_check(it != NULL, "no memory");
    return it;
}

/* --- one task frees the ring while the other is about to use it; both hold the lock while they do --- */

static void take_away(void)
{
    pthread_mutex_lock(&lock);
    struct ring *old = atomic_exchange(&ring, NULL);
    free(old);
    if (is("reuse"))
        kept = malloc(sizeof *old);
    pthread_mutex_unlock(&lock);
}

/* If the compiler knew the size, it would expand the copy; if it knew these pointers, it would warn. */
static volatile size_t some_bytes = 32;
static char *volatile somewhere;
uint64_t copied[4]; /* (stores to a static that is never read would be removed) */

static void use(struct ring *it)
{
    if (is("lock")) {
        pthread_mutex_lock(&it->lock);
        pthread_mutex_unlock(&it->lock);
    } else if (is("copy")) {
        memcpy(copied, it->slots, some_bytes);
    } else {
        it->next++;
    }
}

/* The pointer is read before the lock is taken. */
static void poll(void)
{
    struct ring *it = atomic_load(&ring);
    pthread_mutex_lock(&lock);
    if (IS_FIXED)
        it = atomic_load(&ring);
    if (it)
        use(it);
    pthread_mutex_unlock(&lock);
}

/* --- a reader that no thread waits for --- */

static void read_count(void)
{
    atomic_fetch_add(&readers, 1);
    struct ring *it = atomic_load_explicit(&ring, memory_order_acquire);
    nicx_check(!it || it->count == 0, "the count isn't 0");
    atomic_fetch_sub(&readers, 1);
}

static void replace(void)
{
    struct ring *old = atomic_exchange(&ring, made());
    while (IS_FIXED && atomic_load(&readers))
        nicx_wait();
    free(old);
}

/* --- two paths free the same ring; only the error path then clears the pointer --- */

static void give_back(bool forgets)
{
    pthread_mutex_lock(&lock);
    struct ring *old = atomic_load(&ring);
    if (forgets)
        atomic_store(&ring, NULL);
    free(old);
    pthread_mutex_unlock(&lock);
}

static void meet_error(void)
{
    give_back(true);
}

static void close_ring(void)
{
    give_back(IS_FIXED);
}

/* --- a growing list moves --- */

static uint64_t *list;
static size_t length = 2;

static void grow(void)
{
    pthread_mutex_lock(&lock);
    list = realloc(list, 2 * length * sizeof *list);
    length *= 2;
    pthread_mutex_unlock(&lock);
}

static void add(void)
{
    pthread_mutex_lock(&lock);
    uint64_t *last = &list[length - 1];
    pthread_mutex_unlock(&lock);
    pthread_mutex_lock(&lock);
    if (IS_FIXED)
        last = &list[length - 1];
    *last = 1;
    pthread_mutex_unlock(&lock);
}

/* --- out of bounds --- */

static void past(void)
{
    volatile uint64_t *words = malloc(3 * sizeof *words);
    for (int k = 0; k < (IS_FIXED ? 3 : 4); k++)
        words[k] = 0;
    free((void *)words);
}

static void before(void)
{
    void *first = malloc(24);
    volatile uint32_t *words = malloc(24);
    for (int last = 5; last >= (IS_FIXED ? 0 : -1); last--)
        words[last] = 0;
    free(first);
    free((void *)words);
}

static void middle(void)
{
    char *bytes = malloc(64);
    somewhere = IS_FIXED ? bytes : bytes + 16;
    free(somewhere);
}

static void aligned(void)
{
    void *page = NULL;
    nicx_check(posix_memalign(&page, 4096, 100) == 0 && (uintptr_t)page % 4096 == 0, "no page");
    somewhere = page;
    memset(page, 1, some_bytes);
    if (!IS_FIXED)
        free(page);
    memset(somewhere, 2, some_bytes);
    if (IS_FIXED)
        free(page);
}

/* --- every way to allocate and free memory, used correctly --- */

static void *give(void *at)
{
    memset(at, 3, 40);
    free(at);
    return NULL;
}

static void others_give(void)
{
    void *at[] = {malloc(40), calloc(5, 8), aligned_alloc(64, 64), realloc(NULL, 40), reallocarray(NULL, 5, 8)};
    pthread_t threads[5];
    for (int k = 0; k < 5; k++)
        nicx_check(at[k] && pthread_create(&threads[k], NULL, give, at[k]) == 0, "no thread");
    for (int k = 0; k < 5; k++)
        pthread_join(threads[k], NULL);
}

/* Frees more blocks, and more bytes, than are remembered. */
static void much(void)
{
    for (int k = 0; k < 5000; k++)
        free(malloc(16));
    for (int k = 0; k < 20; k++)
        free(malloc(1 << 20));
}

static void kinds(void)
{
    char *text = strdup("ring"), *more = realloc(text, 100);
    nicx_check(more && !strcmp(more, "ring"), "another text");
    memset(more + 5, 0, 95);
    more = realloc(more, 3);
    nicx_check(more && !memcmp(more, "rin", 3), "another text");
    nicx_check(realloc(more, 0) == NULL, "realloc to size 0 returns memory");
    void *empty = malloc(0), *next = malloc(8);
    free(NULL);
    free(empty);
    memset(next, 1, 8);
    free(next);
    others_give();
    free(kept);
    much();
}

/* --- the thread that woke all waiters of a condition variable may free it before they continue --- */

static pthread_cond_t *busy;
static bool is_busy;

static void wait_idle(void)
{
    pthread_mutex_lock(&lock);
    while (is_busy)
        pthread_cond_wait(busy, &lock);
    pthread_mutex_unlock(&lock);
}

static void be_idle(void)
{
    pthread_mutex_lock(&lock);
    pthread_cond_t *old = busy;
    is_busy = false;
    pthread_cond_broadcast(old);
    pthread_mutex_unlock(&lock);
    pthread_cond_destroy(old);
    free(old);
}

/* --- the modes --- */

static const struct mode modes[] = {
    {"poll", poll},      {"lock", poll},        {"copy", poll},   {"reuse", poll},      {"timer", poll},
    {"rcu", read_count}, {"twice", meet_error}, {"moves", add},   {"aligned", aligned}, {"past", past},
    {"before", before},  {"middle", middle},    {"kinds", kinds}, {"woken", wait_idle},
};

/* The function that the second task runs in each mode. */
static const struct mode stops[] = {
    {"poll", take_away}, {"lock", take_away},   {"copy", take_away}, {"reuse", take_away},
    {"rcu", replace},    {"twice", close_ring}, {"moves", grow},     {"woken", be_idle},
};

static void receive(void *unused)
{
    run_mode(modes, sizeof modes / sizeof *modes);
}

static void stop(void *unused)
{
    if (is("timer"))
        nicx_arm(watchdog);
    run_mode(stops, sizeof stops / sizeof *stops);
}

static void watch(void *unused)
{
    take_away();
}

static const char *bring_up(void)
{
    ring = made();
    kept = calloc(1, 10);
    list = malloc(length * sizeof *list);
    busy = calloc(1, sizeof *busy);
    is_busy = true;
    return NULL;
}

static void begin(void)
{
    nicx_task("receive", receive, NULL);
    nicx_task("stop", stop, NULL);
    watchdog = nicx_timer("watchdog", watch, NULL, 20);
}

static const char *end(void)
{
    return NULL;
}

MODES("", .name = "freed", .fifo = 8, .blocks = 4)
