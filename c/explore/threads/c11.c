/* C11 threads, implemented with POSIX threads: in this C library both use the same objects. Each call keeps its own
   name and place. */
#define _GNU_SOURCE
#include <errno.h>
#include <stdint.h>
#include <threads.h>

#include "form.h"
#include "threads.h"

int __wrap_pthread_mutex_destroy(pthread_mutex_t *mutex);
int __wrap_pthread_cond_init(pthread_cond_t *cond, const pthread_condattr_t *how);
pthread_t __wrap_pthread_self(void);
int __wrap_pthread_key_delete(pthread_key_t key);
void *__wrap_pthread_getspecific(pthread_key_t key);
int __wrap_pthread_setspecific(pthread_key_t key, const void *value);

static int as_c11(int status)
{
    switch (status) {
    case 0: return thrd_success;
    case EBUSY: return thrd_busy;
    case ETIMEDOUT: return thrd_timedout;
    case ENOMEM: return thrd_nomem;
    default: return thrd_error;
    }
}

#define C11(name, parameters, arguments, call) INTERCEPT(int, name, parameters, arguments, as_c11(call))
#define MUTEX ((pthread_mutex_t *)(void *)mutex)
#define COND ((pthread_cond_t *)(void *)cond)

C11(mtx_lock, (mtx_t * mutex), (mutex), nicxi_mutex_lock(MUTEX, BLOCKING, "mtx_lock", HERE))
C11(mtx_trylock, (mtx_t * mutex), (mutex), nicxi_mutex_lock(MUTEX, TRYING, "mtx_trylock", HERE))
C11(mtx_timedlock, (mtx_t * mutex, const struct timespec *until), (mutex, until),
    nicxi_mutex_lock(MUTEX, TIMED, "mtx_timedlock", HERE))
C11(mtx_unlock, (mtx_t * mutex), (mutex), nicxi_mutex_unlock(MUTEX, "mtx_unlock", HERE))
C11(cnd_init, (cnd_t * cond), (cond), __wrap_pthread_cond_init(COND, NULL))
C11(cnd_wait, (cnd_t * cond, mtx_t *mutex), (cond, mutex), nicxi_cond_wait(COND, MUTEX, false, "cnd_wait", HERE))
C11(cnd_timedwait, (cnd_t * cond, mtx_t *mutex, const struct timespec *until), (cond, mutex, until),
    nicxi_cond_wait(COND, MUTEX, true, "cnd_timedwait", HERE))
C11(cnd_signal, (cnd_t * cond), (cond), nicxi_cond_signal(COND, false, "cnd_signal", HERE))
C11(cnd_broadcast, (cnd_t * cond), (cond), nicxi_cond_signal(COND, true, "cnd_broadcast", HERE))
C11(thrd_detach, (thrd_t thread), (thread), nicxi_detach(thread, "thrd_detach"))
C11(tss_create, (tss_t * key, tss_dtor_t destructor), (key, destructor), nicxi_make_key(key, destructor))
C11(tss_set, (tss_t key, void *value), (key, value), __wrap_pthread_setspecific(key, value))

void __real_mtx_destroy(mtx_t *mutex);
void __wrap_mtx_destroy(mtx_t *mutex)
{
    if (nicxi_is_ours())
        __wrap_pthread_mutex_destroy(MUTEX);
    else
        __real_mtx_destroy(mutex);
}

void __real_cnd_destroy(cnd_t *cond);
void __wrap_cnd_destroy(cnd_t *cond)
{
    if (!nicxi_is_ours())
        __real_cnd_destroy(cond);
}

void __real_tss_delete(tss_t key);
void __wrap_tss_delete(tss_t key)
{
    if (nicxi_is_ours())
        __wrap_pthread_key_delete(key);
    else
        __real_tss_delete(key);
}

INTERCEPT(void *, tss_get, (tss_t key), (key), __wrap_pthread_getspecific(key))

void __real_call_once(once_flag *flag, void (*function)(void));
void __wrap_call_once(once_flag *flag, void (*function)(void))
{
    if (nicxi_is_ours())
        nicxi_once((pthread_once_t *)(void *)flag, function, "call_once", HERE);
    else
        __real_call_once(flag, function);
}

/* A C11 thread returns an int, so it starts in a wrapper, which takes the thread's own function from this struct. */
struct beginning {
    thrd_start_t function;
    void *argument;
};

static struct {
    struct beginning list[MOST_THREADS];
    uint64_t epoch;
    unsigned next;
} beginnings;

void nicxi_c11_part(struct checkpoint *it)
{
    nicxi_part(it, &beginnings, sizeof beginnings);
}

static void *begin(void *argument)
{
    const struct beginning *it = argument;
    return (void *)(intptr_t)it->function(it->argument);
}

int __real_thrd_create(thrd_t *thread, thrd_start_t function, void *argument);
int __wrap_thrd_create(thrd_t *thread, thrd_start_t function, void *argument)
{
    if (!nicxi_is_ours())
        return __real_thrd_create(thread, function, argument);
    if (beginnings.epoch != nicxi.epoch)
        beginnings.next = 0;
    beginnings.epoch = nicxi.epoch;
    struct beginning *it = &beginnings.list[beginnings.next++ % MOST_THREADS];
    *it = (struct beginning){function, argument};
    const struct creation creation = {begin, it, (const void *)(uintptr_t)function, 0, false};
    return as_c11(nicxi_create(thread, &creation, "thrd_create", HERE));
}

int __real_thrd_join(thrd_t thread, int *result);
int __wrap_thrd_join(thrd_t thread, int *result)
{
    void *returned = NULL;
    if (!nicxi_is_ours())
        return __real_thrd_join(thread, result);
    int status = nicxi_join(thread, &returned, "thrd_join", HERE);
    if (!status && result)
        *result = (int)(intptr_t)returned;
    return as_c11(status);
}

thrd_t __real_thrd_current(void);
thrd_t __wrap_thrd_current(void)
{
    return __wrap_pthread_self();
}

void __real_thrd_exit(int result) __attribute__((noreturn));
void __wrap_thrd_exit(int result) __attribute__((noreturn));
void __wrap_thrd_exit(int result)
{
    if (nicxi_is_ours())
        nicxi_exit_thread((void *)(intptr_t)result, "thrd_exit", HERE);
    __real_thrd_exit(result);
}
