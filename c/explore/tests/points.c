/* `points MODE words..`: drivers that break only in a schedule in which another thread acts just before a thread call
   takes effect; with FIXED each is correct. Built with -fsanitize=thread, so their atomics are points too. */
#define _GNU_SOURCE
#include <errno.h>
#include <pthread.h>
#include <stdatomic.h>
#include <threads.h>

#include "modes.h"

#ifdef FIXED
enum { IS_FIXED = 1 };
#else
enum { IS_FIXED = 0 };
#endif

static pthread_mutex_t lock = PTHREAD_MUTEX_INITIALIZER;
static pthread_cond_t changed = PTHREAD_COND_INITIALIZER;
static mtx_t lock11;
static cnd_t changed11;
static atomic_int flag, other;

static pthread_t make(void *(*function)(void *))
{
    pthread_t thread = 0;
    nicx_check(pthread_create(&thread, NULL, function, NULL) == 0, "no thread");
    return thread;
}

/* --- a signal between a waiter's last check and its wait wakes no thread --- */

static void *wake(void *unused)
{
    if (IS_FIXED)
        pthread_mutex_lock(&lock);
    atomic_store(&flag, 1);
    if (is("broadcast"))
        pthread_cond_broadcast(&changed);
    else
        pthread_cond_signal(&changed);
    if (IS_FIXED)
        pthread_mutex_unlock(&lock);
    return unused;
}

static void cond_wait(void)
{
    pthread_t thread = make(wake);
    pthread_mutex_lock(&lock);
    while (!atomic_load(&flag))
        pthread_cond_wait(&changed, &lock);
    pthread_mutex_unlock(&lock);
    pthread_join(thread, NULL);
}

static int wake11(void *unused)
{
    if (IS_FIXED)
        mtx_lock(&lock11);
    atomic_store(&flag, 1);
    cnd_signal(&changed11);
    if (IS_FIXED)
        mtx_unlock(&lock11);
    return unused != NULL;
}

static void cnd_wait11(void)
{
    thrd_t thread;
    mtx_init(&lock11, mtx_plain);
    cnd_init(&changed11);
    thrd_create(&thread, wake11, NULL);
    mtx_lock(&lock11);
    while (!atomic_load(&flag))
        cnd_wait(&changed11, &lock11);
    mtx_unlock(&lock11);
    thrd_join(thread, NULL);
}

/* --- a thread reported that it is done, but hasn't ended --- */

static void *say_done(void *unused)
{
    atomic_store(&flag, 1);
    if (is("exit"))
        pthread_exit(unused);
    return unused;
}

static void ends(void)
{
    pthread_t thread = make(say_done);
    while (!atomic_load(&flag))
        sched_yield();
    int status = IS_FIXED ? pthread_join(thread, NULL) : pthread_tryjoin_np(thread, NULL);
    nicx_check(status == 0, "a thread that said it is done hasn't ended");
}

/* --- another thread joins before the thread is detached --- */

static pthread_t worker;

static void *nothing(void *unused)
{
    return unused;
}

static void *join_worker(void *unused)
{
    while (!atomic_load(&flag))
        sched_yield();
    if (!IS_FIXED || !atomic_load(&other))
        pthread_join(worker, NULL);
    return unused;
}

static void detaches(void)
{
    worker = make(nothing);
    pthread_t thread = make(join_worker);
    if (IS_FIXED)
        atomic_store(&other, 1);
    atomic_store(&flag, 1);
    nicx_check(pthread_detach(worker) == 0, "a thread that is to be detached was joined");
    pthread_join(thread, NULL);
}

/* --- the modes --- */

static const struct mode modes[] = {
    {"wait", cond_wait}, {"broadcast", cond_wait}, {"cnd_wait", cnd_wait11},
    {"return", ends},    {"exit", ends},           {"detach", detaches},
};

static void run(void *unused)
{
    run_mode(modes, sizeof modes / sizeof *modes);
}

static const char *bring_up(void)
{
    return NULL;
}

static void begin(void)
{
    nicx_task("run", run, NULL);
}

static const char *end(void)
{
    return NULL;
}

MODES("", .name = "points", .fifo = 8, .blocks = 4)
