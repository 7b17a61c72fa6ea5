/* `real_threads MODE words..`: a driver with threads and locks of the process, without the link form that intercepts
   them. c/explore/check.py checks what is printed. */
#define _GNU_SOURCE
#include <pthread.h>
#include <stdlib.h>

#include "corpus.h"
#include "modes.h"

static pthread_mutex_t lock = PTHREAD_MUTEX_INITIALIZER;

static void *access_card(void *unused)
{
    nicx_write32(NIC_RDT(0), 1);
    return unused;
}

static void make_thread(void)
{
    pthread_t thread;
    pthread_create(&thread, NULL, access_card, NULL);
    pthread_join(thread, NULL);
}

static void run(void *unused)
{
    if (is("thread"))
        make_thread();
    if (!is("lock"))
        return;
    pthread_mutex_lock(&lock);
    nicx_read32(NIC_RDT(0));
    pthread_mutex_unlock(&lock);
}

static void *recurse(void *depth)
{
    volatile char room[512];
    room[0] = (char)(uintptr_t)depth;
    return depth == &lock ? depth : (char *)recurse((char *)depth + 1) + room[0];
}

static void run_deep(void *unused)
{
    if (is("stack"))
        recurse(unused);
    run(unused);
}

static const char *bring_up(void)
{
    if (is("thread_early"))
        make_thread();
    return NULL;
}

static void begin(void)
{
    lock = (pthread_mutex_t)PTHREAD_MUTEX_INITIALIZER;
    nicx_task("one", run, NULL);
    nicx_task("two", run_deep, NULL);
}

static const char *end(void)
{
    return NULL;
}

MODES("", .name = "real_threads", .fifo = 8, .blocks = 4, .stack = 20480)
