/* Condition variables, semaphores, barriers and pthread_once. Each is one of this file's structs inside the driver's
   object. */
#define _GNU_SOURCE
#include <errno.h>
#include <semaphore.h>
#include <stdio.h>
#include <string.h>
#include <time.h>

#include "form.h"
#include "races.h"

static struct posix_thread *posix_of(const struct thread *self)
{
    return &nicxi_posix[nicxi_number(self)];
}

/* Whether a task makes the call. Outside of tasks nothing would end the wait. */
static bool may_wait(const struct thread *self, const char *call, const void *at)
{
    char where[MOST_NAMED];
    nicxi_program_begins();
    if (!self)
        nicxi_misuse("bring_up, begin or end calls %s at %s, which waits forever", call, nicxi_line(at, where));
    return self != NULL;
}

/* --- condition variables: a signal may wake any thread that is waiting when it is sent --- */

struct cond {
    unsigned signals;        /* signals that haven't woken a thread yet */
    unsigned in_vain;        /* the thread that last signalled without waking any, plus 1; or 0 */
    const void *at, *caller; /* place of that signal, and the caller */
};

static struct cond *cond_of(pthread_cond_t *cond)
{
    return (struct cond *)(void *)cond;
}

struct waiting {
    pthread_cond_t *cond;
    pthread_mutex_t *mutex;
    struct thread *self;
    bool is_timed;
};

static bool is_signalled(const struct waiting *waiting)
{
    return posix_of(waiting->self)->may_wake && cond_of(waiting->cond)->signals;
}

static bool may_return(void *argument)
{
    const struct waiting *waiting = argument;
    return nicxi_mutex_is_free(waiting->mutex) &&
           (is_signalled(waiting) || (waiting->is_timed && nicxi_others_acted(waiting->self)));
}

/* Consumes a signal. After the last one, threads that are still waiting need a new signal. */
static void take_signal(const struct waiting *waiting)
{
    posix_of(waiting->self)->may_wake = false;
    if (--cond_of(waiting->cond)->signals)
        return;
    for (unsigned k = 0; k < MOST_THREADS; k++)
        if (nicxi_posix[k].condition == waiting->cond)
            nicxi_posix[k].may_wake = false;
}

int nicxi_cond_wait(pthread_cond_t *cond, pthread_mutex_t *mutex, bool is_timed, const char *call, const void *at)
{
    char name[MOST_NAMED], where[MOST_NAMED];
    struct thread *self = nicxi_caller();
    struct waiting waiting = {cond, mutex, self, is_timed};
    if (!may_wait(self, call, at))
        return EINVAL;
    if (!nicxi_mutex_is_mine(self, mutex))
        nicxi_misuse("%s calls %s at %s with %s, but doesn't hold it", self->name, call, nicxi_line(at, where),
                     nicxi_name(mutex, "a mutex", name));
    /* The mutex is held, but a signaller need not take it. A signal sent between the caller's last check and its wait
       may wake no thread. */
    nicxi_call(READY, call, cond);
    struct posix_thread *posix = posix_of(self);
    posix->condition = cond;
    posix->may_wake = false;
    posix->object = cond;
    posix->call = call;
    posix->at = at;
    posix->caller = nicxi_called_from();
    posix->is_lock = false;
    unsigned count = nicxi_mutex_give(self, mutex);
    nicxi_call_until(may_return, &waiting, is_timed, call, cond);
    bool is_woken = is_signalled(&waiting);
    if (is_woken)
        take_signal(&waiting);
    posix->condition = NULL;
    posix->may_wake = false;
    nicxi_mutex_take(self, mutex, count, at);
    if (is_woken)
        nicxi_race_acquire(cond);
    return is_woken ? 0 : ETIMEDOUT;
}

INTERCEPT(int, pthread_cond_wait, (pthread_cond_t * cond, pthread_mutex_t *mutex), (cond, mutex),
          nicxi_cond_wait(cond, mutex, false, "pthread_cond_wait", HERE))
INTERCEPT(int, pthread_cond_timedwait, (pthread_cond_t * cond, pthread_mutex_t *mutex, const struct timespec *until),
          (cond, mutex, until), nicxi_cond_wait(cond, mutex, true, "pthread_cond_timedwait", HERE))
INTERCEPT(int, pthread_cond_clockwait,
          (pthread_cond_t * cond, pthread_mutex_t *mutex, clockid_t clock, const struct timespec *until),
          (cond, mutex, clock, until), nicxi_cond_wait(cond, mutex, true, "pthread_cond_clockwait", HERE))

static unsigned waiting_at(const void *cond)
{
    unsigned waiting = 0;
    for (unsigned k = 0; k < MOST_THREADS; k++)
        waiting += nicxi_posix[k].condition == cond;
    return waiting;
}

bool nicxi_wakes_nobody(const char *call, const void *object)
{
    return (strstr(call, "_signal") || strstr(call, "_broadcast")) && !waiting_at(object);
}

const char *nicxi_vain_words(const struct posix_thread *posix, char room[2 * MOST_NAMED])
{
    char where[MOST_NAMED];
    const struct cond *cond = posix->condition;
    room[0] = 0;
    if (cond && cond->in_vain)
        snprintf(room, 2 * MOST_NAMED, "; %.40s signalled it at %.90s, but nothing was waiting",
                 nicxi.threads[cond->in_vain - 1].name, nicxi_line_by(cond->at, cond->caller, where));
    return room;
}

/* Wakes one waiting thread, or all. */
int nicxi_cond_signal(pthread_cond_t *cond, bool is_all, const char *call, const void *at)
{
    struct thread *self = nicxi_caller();
    if (self)
        nicxi_call(READY, call, cond);
    unsigned waiting = waiting_at(cond);
    cond_of(cond)->in_vain = waiting || !self ? 0 : nicxi_number(self) + 1;
    cond_of(cond)->at = at;
    cond_of(cond)->caller = nicxi_called_from();
    for (unsigned k = 0; k < MOST_THREADS; k++)
        nicxi_posix[k].may_wake |= nicxi_posix[k].condition == cond;
    if (is_all)
        cond_of(cond)->signals = waiting;
    else if (cond_of(cond)->signals < waiting)
        cond_of(cond)->signals++;
    nicxi_race_release(cond);
    if (waiting)
        nicxi_changed_memory();
    return 0;
}

INTERCEPT(int, pthread_cond_signal, (pthread_cond_t * cond), (cond),
          nicxi_cond_signal(cond, false, "pthread_cond_signal", HERE))
INTERCEPT(int, pthread_cond_broadcast, (pthread_cond_t * cond), (cond),
          nicxi_cond_signal(cond, true, "pthread_cond_broadcast", HERE))

int __real_pthread_cond_init(pthread_cond_t *cond, const pthread_condattr_t *how);
int __wrap_pthread_cond_init(pthread_cond_t *cond, const pthread_condattr_t *how)
{
    if (!nicxi_is_ours())
        return __real_pthread_cond_init(cond, how);
    memset(cond, 0, sizeof *cond);
    return 0;
}

INTERCEPT(int, pthread_cond_destroy, (pthread_cond_t * cond), (cond), 0)

/* --- semaphores --- */

static unsigned *value_of(sem_t *semaphore)
{
    return (unsigned *)(void *)semaphore;
}

static bool is_positive(void *semaphore)
{
    return *value_of(semaphore) != 0;
}

int __real_sem_init(sem_t *semaphore, int is_shared, unsigned value);
int __wrap_sem_init(sem_t *semaphore, int is_shared, unsigned value)
{
    if (!nicxi_is_ours())
        return __real_sem_init(semaphore, is_shared, value);
    memset(semaphore, 0, sizeof *semaphore);
    *value_of(semaphore) = value;
    return 0;
}

INTERCEPT(int, sem_destroy, (sem_t * semaphore), (semaphore), 0)

int __real_sem_getvalue(sem_t *semaphore, int *value);
int __wrap_sem_getvalue(sem_t *semaphore, int *value)
{
    if (!nicxi_is_ours())
        return __real_sem_getvalue(semaphore, value);
    if (nicxi_caller())
        nicxi_call(READY, "sem_getvalue", semaphore);
    *value = (int)*value_of(semaphore);
    return 0;
}

int __real_sem_post(sem_t *semaphore);
int __wrap_sem_post(sem_t *semaphore)
{
    if (!nicxi_is_ours())
        return __real_sem_post(semaphore);
    if (nicxi_caller())
        nicxi_call(READY, "sem_post", semaphore);
    nicxi_race_release(semaphore);
    nicxi_changed_memory();
    ++*value_of(semaphore);
    return 0;
}

static int taken(sem_t *semaphore, int otherwise)
{
    if (!*value_of(semaphore)) {
        errno = otherwise;
        return -1;
    }
    --*value_of(semaphore);
    nicxi_race_acquire(semaphore);
    return 0;
}

int __real_sem_wait(sem_t *semaphore);
int __wrap_sem_wait(sem_t *semaphore)
{
    if (!nicxi_is_ours())
        return __real_sem_wait(semaphore);
    struct thread *self = nicxi_caller();
    if (self)
        nicxi_block(self, is_positive, semaphore, "sem_wait", semaphore, HERE);
    else if (!*value_of(semaphore))
        may_wait(self, "sem_wait", HERE);
    return taken(semaphore, EINVAL);
}

int __real_sem_trywait(sem_t *semaphore);
int __wrap_sem_trywait(sem_t *semaphore)
{
    if (!nicxi_is_ours())
        return __real_sem_trywait(semaphore);
    if (nicxi_caller())
        nicxi_call(READY, "sem_trywait", semaphore);
    return taken(semaphore, EAGAIN);
}

static int wait_for_a_time(sem_t *semaphore, const char *call, const void *at)
{
    struct thread *self = nicxi_caller();
    if (self)
        nicxi_block_timed(self, is_positive, semaphore, call, semaphore, at);
    return taken(semaphore, ETIMEDOUT);
}

INTERCEPT(int, sem_timedwait, (sem_t * semaphore, const struct timespec *until), (semaphore, until),
          wait_for_a_time(semaphore, "sem_timedwait", HERE))
INTERCEPT(int, sem_clockwait, (sem_t * semaphore, clockid_t clock, const struct timespec *until),
          (semaphore, clock, until), wait_for_a_time(semaphore, "sem_clockwait", HERE))

/* --- barriers --- */

struct barrier {
    unsigned count, arrived, round;
};

static struct barrier *barrier_of(pthread_barrier_t *barrier)
{
    return (struct barrier *)(void *)barrier;
}

struct arrival {
    const struct barrier *barrier;
    unsigned round;
};

static bool is_next_round(void *argument)
{
    const struct arrival *arrival = argument;
    return arrival->barrier->round != arrival->round;
}

int __real_pthread_barrier_init(pthread_barrier_t *barrier, const pthread_barrierattr_t *how, unsigned count);
int __wrap_pthread_barrier_init(pthread_barrier_t *barrier, const pthread_barrierattr_t *how, unsigned count)
{
    if (!nicxi_is_ours())
        return __real_pthread_barrier_init(barrier, how, count);
    if (!count)
        return EINVAL;
    memset(barrier, 0, sizeof *barrier);
    barrier_of(barrier)->count = count;
    return 0;
}

INTERCEPT(int, pthread_barrier_destroy, (pthread_barrier_t * barrier), (barrier), 0)

int __real_pthread_barrier_wait(pthread_barrier_t *barrier);
int __wrap_pthread_barrier_wait(pthread_barrier_t *barrier)
{
    if (!nicxi_is_ours())
        return __real_pthread_barrier_wait(barrier);
    struct thread *self = nicxi_caller();
    struct barrier *it = barrier_of(barrier);
    struct arrival arrival = {it, it->round};
    if (!may_wait(self, "pthread_barrier_wait", HERE))
        return EINVAL;
    nicxi_call(READY, "pthread_barrier_wait", barrier);
    arrival.round = it->round;
    nicxi_race_release(barrier);
    nicxi_changed_memory();
    bool is_last = ++it->arrived == it->count;
    if (is_last) {
        it->arrived = 0;
        it->round++;
    } else {
        nicxi_block(self, is_next_round, &arrival, "pthread_barrier_wait", barrier, HERE);
    }
    nicxi_race_acquire(barrier);
    return is_last ? PTHREAD_BARRIER_SERIAL_THREAD : 0;
}

/* --- once --- */

enum { NOT_YET = 0, AT_IT = 1, DONE = 2 };

static bool is_done(void *once)
{
    return *(const volatile pthread_once_t *)once == DONE;
}

int nicxi_once(pthread_once_t *once, void (*function)(void), const char *call, const void *at)
{
    struct thread *self = nicxi_caller();
    if (self)
        nicxi_call(READY, call, once);
    if (*once == AT_IT && may_wait(self, call, at))
        nicxi_block(self, is_done, once, call, once, at);
    if (*once == NOT_YET) {
        *once = AT_IT;
        function();
        *once = DONE;
        nicxi_race_release(once);
        nicxi_changed_memory();
    }
    nicxi_race_acquire(once);
    return 0;
}

INTERCEPT(int, pthread_once, (pthread_once_t * once, void (*function)(void)), (once, function),
          nicxi_once(once, function, "pthread_once", HERE))
