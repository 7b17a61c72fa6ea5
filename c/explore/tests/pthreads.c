/* `pthreads MODE words..`: a driver's own threads, with each intercepted call; and one mode for each fault.
   c/explore/check.py checks how each fault is reported. */
#define _GNU_SOURCE
#include <errno.h>
#include <poll.h>
#include <pthread.h>
#include <semaphore.h>
#include <stdatomic.h>
#include <stdio.h>
#include <stdlib.h>
#include <string.h>
#include <sys/time.h>
#include <threads.h>
#include <time.h>
#include <unistd.h>

#include "corpus.h"
#include "modes.h"

static pthread_mutex_t first = PTHREAD_MUTEX_INITIALIZER, second = PTHREAD_MUTEX_INITIALIZER;
static pthread_cond_t changed = PTHREAD_COND_INITIALIZER;
static unsigned count, inside, seen;
static int number = 7; /* restored to this before each schedule */
static __thread int own = 3;
static char *text;

static pthread_t make(void *(*function)(void *), void *argument)
{
    pthread_t thread = 0;
    nicx_check(pthread_create(&thread, NULL, function, argument) == 0, "no thread");
    return thread;
}

static void *joined(pthread_t thread)
{
    void *result = NULL;
    nicx_check(pthread_join(thread, &result) == 0, "no join");
    return result;
}

/* No lock may admit two threads here at the same time. */
static void be_inside(void)
{
    nicx_check(!inside++, "two threads are inside");
    nicx_point();
    inside--;
}

/* --- locks --- */

static void *use_mutex(void *argument)
{
    pthread_mutex_t *mutex = argument;
    pthread_mutex_lock(mutex);
    be_inside();
    count++;
    pthread_mutex_unlock(mutex);
    return argument;
}

static void mutex(void)
{
    pthread_t one = make(use_mutex, &first), two = make(use_mutex, &first);
    nicx_check(joined(one) == &first && joined(two) == &first && count == 2, "a result is wrong");
}

static void *use_recursive(void *argument)
{
    pthread_mutex_lock(argument);
    use_mutex(argument);
    nicx_check(pthread_mutex_trylock(argument) == 0, "the holder can't lock a recursive mutex again");
    pthread_mutex_unlock(argument);
    pthread_mutex_unlock(argument);
    return NULL;
}

static void recursive(void)
{
    pthread_mutexattr_t how;
    pthread_mutex_t mutex;
    pthread_mutexattr_init(&how);
    pthread_mutexattr_settype(&how, PTHREAD_MUTEX_RECURSIVE);
    pthread_mutex_init(&mutex, &how);
    pthread_t other = make(use_recursive, &mutex);
    use_recursive(&mutex);
    joined(other);
    nicx_check(pthread_mutex_destroy(&mutex) == 0 && count == 2, "the mutex is still held, or the count isn't 2");
}

static void checked(void)
{
    pthread_mutexattr_t how;
    pthread_mutex_t mutex;
    pthread_mutexattr_init(&how);
    pthread_mutexattr_settype(&how, PTHREAD_MUTEX_ERRORCHECK);
    pthread_mutex_init(&mutex, &how);
    nicx_check(pthread_mutex_unlock(&mutex) == EPERM, "a mutex that nobody holds is unlocked");
    pthread_mutex_lock(&mutex);
    nicx_check(pthread_mutex_lock(&mutex) == EDEADLK, "the holder locks the mutex twice");
    nicx_check(pthread_mutex_trylock(&mutex) == EBUSY, "a held mutex can be locked");
    pthread_mutex_unlock(&mutex);
}

static void *try_mutex(void *unused)
{
    struct timespec until = {0, 0};
    int status = is("trylock") ? pthread_mutex_trylock(&first) : pthread_mutex_timedlock(&first, &until);
    nicx_check(!status || status == (is("trylock") ? EBUSY : ETIMEDOUT), "an unexpected status");
    if (status)
        return unused;
    be_inside();
    pthread_mutex_unlock(&first);
    return NULL;
}

static void trylock(void)
{
    pthread_t other = make(try_mutex, &first);
    use_mutex(&first);
    joined(other);
}

static void *use_spin(void *argument)
{
    pthread_spin_lock(argument);
    nicx_check(pthread_spin_trylock(argument) == EBUSY, "a held spin lock can be locked");
    be_inside();
    pthread_spin_unlock(argument);
    return NULL;
}

static void spin(void)
{
    pthread_spinlock_t lock;
    pthread_spin_init(&lock, PTHREAD_PROCESS_PRIVATE);
    pthread_t other = make(use_spin, (void *)(uintptr_t)&lock);
    use_spin((void *)(uintptr_t)&lock);
    joined(other);
}

static pthread_rwlock_t shared = PTHREAD_RWLOCK_INITIALIZER;
static unsigned readers;

static void *read_shared(void *unused)
{
    pthread_rwlock_rdlock(&shared);
    nicx_check(!inside, "a reader and a writer hold the lock together");
    readers++;
    seen |= readers > 1;
    nicx_check(pthread_rwlock_trywrlock(&shared) == EBUSY, "a writer and a reader hold the lock together");
    readers--;
    pthread_rwlock_unlock(&shared);
    return unused;
}

static void rwlock(void)
{
    pthread_t one = make(read_shared, NULL), two = make(read_shared, NULL);
    pthread_rwlock_wrlock(&shared);
    nicx_check(!readers && pthread_rwlock_tryrdlock(&shared) == EBUSY, "a reader and a writer hold the lock together");
    be_inside();
    pthread_rwlock_unlock(&shared);
    joined(one);
    joined(two);
}

/* --- waits --- */

static void *consume(void *unused)
{
    pthread_mutex_lock(&first);
    while (!count)
        pthread_cond_wait(&changed, &first);
    count--;
    pthread_mutex_unlock(&first);
    return unused;
}

static void cond(void)
{
    pthread_t one = make(consume, NULL), two = make(consume, NULL);
    for (unsigned k = 0; k < 2; k++) {
        pthread_mutex_lock(&first);
        count++;
        if (is("broadcast"))
            pthread_cond_broadcast(&changed);
        else
            pthread_cond_signal(&changed);
        pthread_mutex_unlock(&first);
    }
    joined(one);
    joined(two);
    nicx_check(!count, "the count isn't 0");
}

static void *signal_once(void *unused)
{
    pthread_mutex_lock(&first);
    count = 1;
    pthread_cond_signal(&changed);
    pthread_mutex_unlock(&first);
    return unused;
}

static void timedwait(void)
{
    struct timespec until = {0, 0};
    pthread_t other = make(signal_once, NULL);
    pthread_mutex_lock(&first);
    int status = count ? 0 : pthread_cond_timedwait(&changed, &first, &until);
    nicx_check(status == ETIMEDOUT || count, "the wait ends without a signal");
    pthread_mutex_unlock(&first);
    joined(other);
}

static sem_t semaphore;

static void *post(void *unused)
{
    sem_post(&semaphore);
    return unused;
}

static void semaphores(void)
{
    int value = 0;
    struct timespec until = {0, 0};
    sem_init(&semaphore, 0, 0);
    pthread_t other = make(post, NULL);
    nicx_check(sem_trywait(&semaphore) == 0 || (errno == EAGAIN && sem_wait(&semaphore) == 0), "sem_wait fails");
    joined(other);
    nicx_check(sem_getvalue(&semaphore, &value) == 0 && value == 0, "the semaphore's value isn't 0");
    nicx_check(sem_timedwait(&semaphore, &until) < 0 && errno == ETIMEDOUT, "a timed wait doesn't time out");
    sem_destroy(&semaphore);
}

static pthread_barrier_t barrier;

static void *arrive(void *unused)
{
    count++;
    int status = pthread_barrier_wait(&barrier);
    nicx_check(count == 2, "the barrier lets one through");
    seen += status == PTHREAD_BARRIER_SERIAL_THREAD;
    pthread_barrier_wait(&barrier);
    return unused;
}

static void barriers(void)
{
    pthread_barrier_init(&barrier, NULL, 2);
    pthread_t other = make(arrive, NULL);
    arrive(NULL);
    joined(other);
    nicx_check(seen == 1, "not exactly one thread is the serial thread");
    pthread_barrier_destroy(&barrier);
}

static pthread_once_t once = PTHREAD_ONCE_INIT;

static void count_once(void)
{
    count++;
    nicx_point();
    seen = 1;
}

static void *do_once(void *unused)
{
    pthread_once(&once, count_once);
    nicx_check(count == 1 && seen, "the function didn't run exactly once");
    return unused;
}

static void onces(void)
{
    pthread_t other = make(do_once, NULL);
    do_once(NULL);
    joined(other);
}

/* --- thread-specific values --- */

static pthread_key_t key;

static void count_value(void *value)
{
    count += value == &count;
}

static void *use_own(void *unused)
{
    nicx_check(own == 3 && !pthread_getspecific(key), "a value is another thread's");
    own = 4;
    errno = 5;
    pthread_setspecific(key, &count);
    nicx_point();
    nicx_check(own == 4 && errno == 5 && pthread_getspecific(key) == &count, "a value is another thread's");
    return unused;
}

static void keys(void)
{
    pthread_key_create(&key, count_value);
    pthread_t other = make(use_own, NULL);
    use_own(NULL);
    joined(other);
    nicx_check(count == 1, "the value wasn't destroyed");
    nicx_check(!pthread_equal(pthread_self(), other), "two threads are equal");
}

static void *leave(void *unused)
{
    pthread_exit(&count);
}

static void *wait_a_while(void *unused)
{
    struct timespec time = {1, 0}, before, after;
    clock_gettime(CLOCK_MONOTONIC, &before);
    nanosleep(&time, NULL);
    clock_gettime(CLOCK_MONOTONIC, &after);
    nicx_check(after.tv_sec > before.tv_sec, "the clock didn't advance");
    usleep(1);
    sched_yield();
    return unused;
}

static void exits(void)
{
    pthread_t one = make(leave, NULL), two = make(wait_a_while, NULL);
    nicx_check(joined(one) == &count && pthread_join(one, NULL) == EINVAL, "a wrong result");
    nicx_check(pthread_detach(two) == 0 && pthread_join(two, NULL) == EINVAL, "the thread isn't detached");
}

/* --- C11 --- */

static mtx_t lock;
static cnd_t cnd;
static once_flag flag = ONCE_FLAG_INIT;

static int run_c11(void *argument)
{
    call_once(&flag, count_once);
    mtx_lock(&lock);
    be_inside();
    cnd_signal(&cnd);
    mtx_unlock(&lock);
    thrd_yield();
    return *(int *)argument;
}

static void c11(void)
{
    thrd_t other;
    int result = 0;
    nicx_check(mtx_init(&lock, mtx_plain) == thrd_success && cnd_init(&cnd) == thrd_success, "no lock");
    mtx_lock(&lock);
    nicx_check(thrd_create(&other, run_c11, &number) == thrd_success, "no thread");
    nicx_check(cnd_wait(&cnd, &lock) == thrd_success && mtx_trylock(&lock) == thrd_busy, "the mutex isn't held");
    mtx_unlock(&lock);
    nicx_check(thrd_join(other, &result) == thrd_success && result == 7 && count == 1, "a wrong result");
    mtx_destroy(&lock);
}

/* --- what is restored before each schedule --- */

static bool is_filled(const unsigned char *bytes, size_t length, unsigned char with)
{
    size_t k = 0;
    while (k < length && bytes[k] == with)
        k++;
    return k == length;
}

/* Aligned memory keeps its bytes when it is reallocated, and its freed block isn't reused as a larger one. */
static void keep_aligned(void)
{
    enum { SIZE = 700 };
    unsigned char *bytes = aligned_alloc(64, 704), *others[10];
    nicx_check(bytes && (uintptr_t)bytes % 64 == 0, "the memory isn't aligned");
    memset(bytes, 7, SIZE);
    bytes = realloc(bytes, 5000);
    nicx_check(bytes && is_filled(bytes, SIZE, 7), "the memory lost bytes when it moved");
    for (unsigned char k = 0; k < 10; k++) {
        others[k] = malloc((size_t)1 << k);
        nicx_check(others[k] != NULL, "out of memory");
        memset(others[k], k, (size_t)1 << k);
    }
    for (unsigned char k = 0; k < 10; k++)
        nicx_check(is_filled(others[k], (size_t)1 << k, k), "two allocations overlap");
    free(bytes);
}

static void *spoil(void *unused)
{
    number++;
    strcpy(text, "spoilt");
    free(malloc(100));
    void *left = NULL;
    nicx_check(posix_memalign(&left, 4096, 100) == 0 && (uintptr_t)left % 4096 == 0, "the page isn't aligned");
    keep_aligned();
    nicx_check((text = realloc(text, 5000)) && !strcmp(text, "spoilt"), "the text changed");
    return unused;
}

static void state(void)
{
    nicx_check(number == 7 && !strcmp(text, "as it was"), "something remains from another schedule");
    joined(make(spoil, NULL));
}

/* A loop on an atomic value pauses by itself. */
static atomic_int ready;

static void *set_ready(void *unused)
{
    atomic_store(&ready, 1);
    return unused;
}

static void atomics(void)
{
    pthread_t other = make(set_ready, NULL);
    while (!atomic_load(&ready))
        sched_yield();
    joined(other);
}

/* A service that polls forever counts as at rest. */
static void *poll_for_ever(void *unused)
{
    for (;;) {
        pthread_mutex_lock(&first);
        count++;
        pthread_mutex_unlock(&first);
        usleep(1);
    }
    return unused;
}

static void rests(void)
{
    make(poll_for_ever, NULL);
    make(poll_for_ever, NULL);
}

static void many(void)
{
    for (unsigned k = 1; k < NICX_TASKS; k++)
        make(use_mutex, &first);
}

/* --- one fault each --- */

static void *other_order(void *unused)
{
    pthread_mutex_lock(&second);
    pthread_mutex_lock(&first);
    pthread_mutex_unlock(&first);
    pthread_mutex_unlock(&second);
    return unused;
}

static void orders(void)
{
    pthread_t other = make(other_order, NULL);
    pthread_mutex_lock(&first);
    pthread_mutex_lock(&second);
    pthread_mutex_unlock(&second);
    pthread_mutex_unlock(&first);
    joined(other);
}

static void again(void)
{
    pthread_mutex_lock(&first);
    pthread_mutex_lock(&first);
}

static void *only_take(void *unused)
{
    pthread_mutex_lock(&first);
    return unused;
}

static void held(void)
{
    joined(make(only_take, NULL));
}

static void not_held(void)
{
    make(use_mutex, &first);
    pthread_mutex_unlock(&first);
}

static void destroyed(void)
{
    pthread_mutex_destroy(&first);
    pthread_mutex_lock(&first);
}

static void without(void)
{
    pthread_cond_wait(&changed, &first);
}

/* The count is checked before the lock is taken, so the signal may be sent between the two. */
static void lost(void)
{
    make(signal_once, NULL);
    if (count)
        return;
    pthread_mutex_lock(&first);
    pthread_cond_wait(&changed, &first);
    pthread_mutex_unlock(&first);
}

static void wait_for_nobody(void)
{
    sem_init(&semaphore, 0, 0);
    sem_wait(&semaphore);
}

static void cancel(void)
{
    pthread_cancel(make(use_mutex, &first));
}

static void poll_files(void)
{
    poll(NULL, 0, -1);
}

static void too_many(void)
{
    for (unsigned k = 0; k < NICX_TASKS; k++)
        make(use_mutex, &first);
}

static void *recurse(void *depth)
{
    volatile char room[512];
    room[0] = (char)(uintptr_t)depth;
    return depth == &count ? depth : (char *)recurse((char *)depth + 1) + room[0];
}

/* The smallest stack that the machine allows (on arm64, 128 KiB), but at least 32 KiB. */
static size_t small_stack(void)
{
    long least = sysconf(_SC_THREAD_STACK_MIN);
    return least > 32768 ? (size_t)least : 32768;
}

static void overflow(void)
{
    pthread_t thread;
    pthread_attr_t how;
    pthread_attr_init(&how);
    if (is("small_stack"))
        pthread_attr_setstacksize(&how, small_stack());
    pthread_create(&thread, &how, recurse, NULL);
    joined(thread);
}

/* --- the modes --- */

static const struct mode modes[] = {
    {"mutex", mutex},
    {"recursive", recursive},
    {"checked", checked},
    {"trylock", trylock},
    {"timedlock", trylock},
    {"spin", spin},
    {"rwlock", rwlock},
    {"cond", cond},
    {"broadcast", cond},
    {"timedwait", timedwait},
    {"semaphores", semaphores},
    {"barriers", barriers},
    {"onces", onces},
    {"keys", keys},
    {"exits", exits},
    {"c11", c11},
    {"state", state},
    {"atomics", atomics},
    {"rests", rests},
    {"many", many},
    {"orders", orders},
    {"again", again},
    {"held", held},
    {"not_held", not_held},
    {"destroyed", destroyed},
    {"without", without},
    {"lost", lost},
    {"wait_for_nobody", wait_for_nobody},
    {"cancel", cancel},
    {"poll", poll_files},
    {"too_many", too_many},
    {"overflow", overflow},
    {"small_stack", overflow},
    {"early", NULL},
};

static void run(void *unused)
{
    run_mode(modes, sizeof modes / sizeof *modes);
}

static const char *bring_up(void)
{
    if (is("early"))
        make(use_mutex, &first);
    text = strdup("as it was");
    return text ? NULL : "out of memory";
}

static void begin(void)
{
    nicx_task("run", run, NULL);
}

static const char *end(void)
{
    return NULL;
}

MODES("", .name = "pthreads", .fifo = 8, .blocks = 4)
