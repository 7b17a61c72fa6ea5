/* Mutexes, spin locks, reader-writer locks. Their state is kept in the driver's own object, so it is restored with the
   driver's memory: in the C library's own fields of a mutex, and in a struct of ours in a reader-writer lock. */
#define _GNU_SOURCE
#include "form.h"

#include <errno.h>
#include <time.h>

#include "races.h"

enum kind { NORMAL = 0, RECURSIVE = 1, CHECKED = 2, KIND = 3, GONE = 0x40000000 };

/* The holder's number in a lock that was taken outside of tasks, as in bring_up. */
enum { BY_OUTSIDE = MOST_THREADS + 1 };

static int number_of(const struct thread *self)
{
    return self ? (int)nicxi_number(self) + 1 : BY_OUTSIDE;
}

static const char *name_of_caller(const struct thread *self)
{
    return self ? self->name : "bring_up, begin or end";
}

/* Fails for a lock that is never released: its own holder waits for it, or code outside of tasks does. */
static void tell_own(const struct thread *self, const void *lock, const void *at)
{
    char name[MOST_NAMED], where[MOST_NAMED], since[MOST_NAMED];
    const struct posix_thread *posix = self ? &nicxi_posix[nicxi_number(self)] : NULL;
    const void *taken = NULL;
    for (unsigned k = 0; posix && k < posix->locks && k < MOST_HELD; k++)
        if (posix->held[k].object == lock)
            taken = posix->held[k].at;
    nicxi_failed(NICX_DEADLOCK, "%s waits for %s at %s, but %s%s%s", name_of_caller(self),
                 nicxi_name(lock, "a lock", name), nicxi_line(at, where), self ? "holds it itself" : "a task holds it",
                 taken ? " since " : "", taken ? nicxi_line(taken, since) : "");
    nicxi_leave();
}

static void tell_not_held(const struct thread *self, const void *lock, const void *at)
{
    char name[MOST_NAMED], where[MOST_NAMED];
    nicxi_misuse("%s unlocks %s at %s without holding it", name_of_caller(self), nicxi_name(lock, "a lock", name),
                 nicxi_line(at, where));
}

/* --- mutexes --- */

bool nicxi_mutex_is_free(const pthread_mutex_t *mutex)
{
    return !mutex->__data.__lock;
}

bool nicxi_mutex_is_mine(const struct thread *self, const pthread_mutex_t *mutex)
{
    return mutex->__data.__lock && mutex->__data.__owner == number_of(self);
}

static bool is_free(void *mutex)
{
    return nicxi_mutex_is_free(mutex);
}

void nicxi_mutex_take(struct thread *self, pthread_mutex_t *mutex, unsigned count, const void *at)
{
    mutex->__data.__lock = 1;
    mutex->__data.__owner = number_of(self);
    mutex->__data.__count = count;
    if (self)
        nicxi_hold(self, mutex, at);
    nicxi_race_acquire(mutex);
}

unsigned nicxi_mutex_give(struct thread *self, pthread_mutex_t *mutex)
{
    unsigned count = mutex->__data.__count;
    nicxi_race_release(mutex);
    mutex->__data.__lock = 0;
    mutex->__data.__owner = 0;
    mutex->__data.__count = 0;
    if (self)
        nicxi_drop(self, mutex);
    return count;
}

static void look_at(const struct thread *self, const pthread_mutex_t *mutex, const void *at)
{
    char name[MOST_NAMED], where[MOST_NAMED];
    if (mutex->__data.__kind & GONE)
        nicxi_misuse("%s uses %s at %s after it was destroyed", name_of_caller(self),
                     nicxi_name(mutex, "a mutex", name), nicxi_line(at, where));
}

/* Waits until the lock may be taken, or for a limited time. Without other threads, no other thread can hold it. */
static void stand_before(struct thread *self, bool (*may)(void *), void *lock, enum how how, const char *call,
                         const void *at)
{
    if (!self || self == nicxi_alone)
        return;
    if (how == BLOCKING)
        nicxi_block_lock(self, may, lock, call, lock, at);
    else if (how == TIMED)
        nicxi_block_timed(self, may, lock, call, lock, at);
    else
        nicxi_call(READY, call, lock);
}

/* Handles a mutex that the caller already holds. Returns whether the call is complete, with its result in `answer`. */
static bool take_again(struct thread *self, pthread_mutex_t *mutex, enum how how, const void *at, int *answer)
{
    int kind = mutex->__data.__kind & KIND;
    if (!nicxi_mutex_is_mine(self, mutex))
        return false;
    if (kind == RECURSIVE)
        mutex->__data.__count++;
    *answer = kind == RECURSIVE ? 0 : how == TRYING ? EBUSY : kind == CHECKED ? EDEADLK : ETIMEDOUT;
    if (how == BLOCKING && kind != RECURSIVE && kind != CHECKED)
        tell_own(self, mutex, at);
    return true;
}

int nicxi_mutex_lock(pthread_mutex_t *mutex, enum how how, const char *call, const void *at)
{
    struct thread *self = nicxi_caller();
    int answer;
    look_at(self, mutex, at);
    if (take_again(self, mutex, how, at, &answer))
        return answer;
    stand_before(self, is_free, mutex, how, call, at);
    if (!nicxi_mutex_is_free(mutex)) {
        if (how == BLOCKING)
            tell_own(self, mutex, at);
        return how == TRYING ? EBUSY : ETIMEDOUT;
    }
    nicxi_mutex_take(self, mutex, 1, at);
    return 0;
}

INTERCEPT(int, pthread_mutex_lock, (pthread_mutex_t * mutex), (mutex),
          nicxi_mutex_lock(mutex, BLOCKING, "pthread_mutex_lock", HERE))
INTERCEPT(int, pthread_mutex_trylock, (pthread_mutex_t * mutex), (mutex),
          nicxi_mutex_lock(mutex, TRYING, "pthread_mutex_trylock", HERE))
INTERCEPT(int, pthread_mutex_timedlock, (pthread_mutex_t * mutex, const struct timespec *until), (mutex, until),
          nicxi_mutex_lock(mutex, TIMED, "pthread_mutex_timedlock", HERE))
INTERCEPT(int, pthread_mutex_clocklock, (pthread_mutex_t * mutex, clockid_t clock, const struct timespec *until),
          (mutex, clock, until), nicxi_mutex_lock(mutex, TIMED, "pthread_mutex_clocklock", HERE))

int nicxi_mutex_unlock(pthread_mutex_t *mutex, const char *call, const void *at)
{
    struct thread *self = nicxi_caller();
    look_at(self, mutex, at);
    if (self)
        nicxi_call(READY, call, mutex);
    if (!nicxi_mutex_is_mine(self, mutex)) {
        if ((mutex->__data.__kind & KIND) == NORMAL)
            tell_not_held(self, mutex, at);
        return EPERM;
    }
    if (--mutex->__data.__count == 0)
        nicxi_mutex_give(self, mutex);
    return 0;
}

INTERCEPT(int, pthread_mutex_unlock, (pthread_mutex_t * mutex), (mutex),
          nicxi_mutex_unlock(mutex, "pthread_mutex_unlock", HERE))

/* pthread_mutex_init isn't intercepted: the C library's own call initializes a free mutex with its kind. */
int __real_pthread_mutex_destroy(pthread_mutex_t *mutex);
int __wrap_pthread_mutex_destroy(pthread_mutex_t *mutex)
{
    char name[MOST_NAMED], where[MOST_NAMED];
    if (!nicxi_is_ours())
        return __real_pthread_mutex_destroy(mutex);
    if (!nicxi_mutex_is_free(mutex))
        nicxi_misuse("%s destroys %s at %s while it is held", name_of_caller(nicxi_caller()),
                     nicxi_name(mutex, "a mutex", name), nicxi_line(HERE, where));
    mutex->__data.__kind |= GONE;
    return 0;
}

/* --- spin locks: the value is the holder's number --- */

static bool is_spin_free(void *lock)
{
    return !*(const volatile int *)lock;
}

static int spin(volatile int *lock, enum how how, const char *call, const void *at)
{
    struct thread *self = nicxi_caller();
    if (*lock == number_of(self) && how == BLOCKING)
        tell_own(self, (const void *)(uintptr_t)lock, at);
    stand_before(self, is_spin_free, (void *)(uintptr_t)lock, how, call, at);
    if (*lock)
        return EBUSY;
    *lock = number_of(self);
    if (self)
        nicxi_hold(self, (const void *)(uintptr_t)lock, at);
    nicxi_race_acquire((const void *)(uintptr_t)lock);
    return 0;
}

int __real_pthread_spin_init(pthread_spinlock_t *lock, int is_shared);
int __wrap_pthread_spin_init(pthread_spinlock_t *lock, int is_shared)
{
    if (!nicxi_is_ours())
        return __real_pthread_spin_init(lock, is_shared);
    *lock = 0;
    return 0;
}

INTERCEPT(int, pthread_spin_lock, (pthread_spinlock_t * lock), (lock), spin(lock, BLOCKING, "pthread_spin_lock", HERE))
INTERCEPT(int, pthread_spin_trylock, (pthread_spinlock_t * lock), (lock),
          spin(lock, TRYING, "pthread_spin_trylock", HERE))

int __real_pthread_spin_unlock(pthread_spinlock_t *lock);
int __wrap_pthread_spin_unlock(pthread_spinlock_t *lock)
{
    if (!nicxi_is_ours())
        return __real_pthread_spin_unlock(lock);
    struct thread *self = nicxi_caller();
    const void *object = (const void *)(uintptr_t)lock;
    if (self)
        nicxi_call(READY, "pthread_spin_unlock", object);
    if (*lock != number_of(self))
        tell_not_held(self, object, HERE);
    nicxi_race_release(object);
    *lock = 0;
    if (self)
        nicxi_drop(self, object);
    return 0;
}

/* --- reader-writer locks --- */

struct shared {
    int writer; /* the writer's number */
    int readers;
};

static struct shared *shared_of(pthread_rwlock_t *lock)
{
    return (struct shared *)(void *)lock;
}

static bool may_read(void *lock)
{
    return !shared_of(lock)->writer;
}

static bool may_write(void *lock)
{
    return !shared_of(lock)->writer && !shared_of(lock)->readers;
}

static bool holds(const struct thread *self, const void *lock)
{
    const struct posix_thread *posix = self ? &nicxi_posix[nicxi_number(self)] : NULL;
    for (unsigned k = 0; posix && k < posix->locks && k < MOST_HELD; k++)
        if (posix->held[k].object == lock)
            return true;
    return false;
}

static int share(pthread_rwlock_t *lock, bool writes, enum how how, const char *call, const void *at)
{
    struct thread *self = nicxi_caller();
    bool (*may)(void *) = writes ? may_write : may_read;
    if (how == BLOCKING && holds(self, lock) && !may(lock))
        tell_own(self, lock, at);
    stand_before(self, may, lock, how, call, at);
    if (!may(lock))
        return how == TRYING ? EBUSY : ETIMEDOUT;
    if (writes)
        shared_of(lock)->writer = number_of(self);
    else
        shared_of(lock)->readers++;
    if (self)
        nicxi_hold(self, lock, at);
    nicxi_race_acquire(lock);
    if (writes)
        nicxi_race_acquire(&shared_of(lock)->readers);
    return 0;
}

#define SHARED(name, writes, how, parameters, arguments)                                                               \
    INTERCEPT(int, pthread_rwlock_##name, parameters, arguments,                                                       \
              share(lock, writes, how, "pthread_rwlock_" #name, HERE))

SHARED(rdlock, false, BLOCKING, (pthread_rwlock_t * lock), (lock))
SHARED(tryrdlock, false, TRYING, (pthread_rwlock_t * lock), (lock))
SHARED(timedrdlock, false, TIMED, (pthread_rwlock_t * lock, const struct timespec *until), (lock, until))
SHARED(wrlock, true, BLOCKING, (pthread_rwlock_t * lock), (lock))
SHARED(trywrlock, true, TRYING, (pthread_rwlock_t * lock), (lock))
SHARED(timedwrlock, true, TIMED, (pthread_rwlock_t * lock, const struct timespec *until), (lock, until))

int __real_pthread_rwlock_unlock(pthread_rwlock_t *lock);
int __wrap_pthread_rwlock_unlock(pthread_rwlock_t *lock)
{
    if (!nicxi_is_ours())
        return __real_pthread_rwlock_unlock(lock);
    struct thread *self = nicxi_caller();
    struct shared *shared = shared_of(lock);
    if (self)
        nicxi_call(READY, "pthread_rwlock_unlock", lock);
    if (shared->writer ? shared->writer != number_of(self) : !shared->readers || (self && !holds(self, lock)))
        tell_not_held(self, lock, HERE);
    nicxi_race_release(shared->writer ? (const void *)lock : &shared->readers);
    if (shared->writer)
        shared->writer = 0;
    else
        shared->readers--;
    if (self)
        nicxi_drop(self, lock);
    return 0;
}
