#include "turns.h"

#include <pthread.h>
#include <stdbool.h>

static bool is_shared;
static pthread_rwlock_t lock;
static _Thread_local bool is_inside;

/* Threads that wait for the device take precedence over threads that enter the driver. Otherwise polling threads would
   starve the waiting ones. */
void turns_share(void)
{
    pthread_rwlockattr_t attributes;
    pthread_rwlockattr_init(&attributes);
    pthread_rwlockattr_setkind_np(&attributes, PTHREAD_RWLOCK_PREFER_WRITER_NONRECURSIVE_NP);
    pthread_rwlock_init(&lock, &attributes);
    pthread_rwlockattr_destroy(&attributes);
    is_shared = true;
}

void turns_enter(void)
{
    if (!is_shared)
        return;
    pthread_rwlock_rdlock(&lock);
    is_inside = true;
}

void turns_leave(void)
{
    if (!is_shared)
        return;
    is_inside = false;
    pthread_rwlock_unlock(&lock);
}

void turns_take(void)
{
    if (!is_shared)
        return;
    if (is_inside)
        pthread_rwlock_unlock(&lock);
    pthread_rwlock_wrlock(&lock);
}

void turns_give_back(void)
{
    if (!is_shared)
        return;
    pthread_rwlock_unlock(&lock);
    if (is_inside)
        pthread_rwlock_rdlock(&lock);
}
