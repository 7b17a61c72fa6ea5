/* Threads themselves, and their thread-specific values. */
#define _GNU_SOURCE
#include "form.h"

#include <errno.h>
#include <limits.h>
#include <stdlib.h>
#include <string.h>

#include "races.h"
#include "threads.h"

/* --- thread-specific values --- */

struct keys nicxi_keys;

static void **values(void)
{
    const struct thread *self = nicxi_caller();
    return nicxi_posix[self ? nicxi_number(self) : OUTSIDE].values;
}

static bool is_key(unsigned key)
{
    return key < MOST_KEYS && nicxi_keys.is_used[key];
}

int nicxi_make_key(pthread_key_t *key, void (*destructor)(void *))
{
    for (unsigned k = 0; k < MOST_KEYS; k++) {
        if (nicxi_keys.is_used[k])
            continue;
        nicxi_keys.is_used[k] = true;
        nicxi_keys.destructors[k] = destructor;
        for (unsigned n = 0; n <= OUTSIDE; n++)
            nicxi_posix[n].values[k] = NULL;
        *key = k;
        return 0;
    }
    return EAGAIN;
}

INTERCEPT(int, pthread_key_create, (pthread_key_t * key, void (*destructor)(void *)), (key, destructor),
          nicxi_make_key(key, destructor))

int __real_pthread_key_delete(pthread_key_t key);
int __wrap_pthread_key_delete(pthread_key_t key)
{
    if (!nicxi_is_ours())
        return __real_pthread_key_delete(key);
    if (!is_key(key))
        return EINVAL;
    nicxi_keys.is_used[key] = false;
    return 0;
}

void *__real_pthread_getspecific(pthread_key_t key);
void *__wrap_pthread_getspecific(pthread_key_t key)
{
    if (!nicxi_is_ours())
        return __real_pthread_getspecific(key);
    return is_key(key) ? values()[key] : NULL;
}

int __real_pthread_setspecific(pthread_key_t key, const void *value);
int __wrap_pthread_setspecific(pthread_key_t key, const void *value)
{
    if (!nicxi_is_ours())
        return __real_pthread_setspecific(key, value);
    if (!is_key(key))
        return EINVAL;
    values()[key] = (void *)(uintptr_t)value;
    return 0;
}

/* A destructor may set values again, a limited number of times. */
static void destroy_values(struct posix_thread *posix)
{
    bool any = true;
    for (unsigned round = 0; any && round < PTHREAD_DESTRUCTOR_ITERATIONS; round++) {
        any = false;
        for (unsigned k = 0; k < MOST_KEYS; k++) {
            void *value = posix->values[k];
            posix->values[k] = NULL;
            if (!value || !nicxi_keys.is_used[k] || !nicxi_keys.destructors[k])
                continue;
            any = true;
            nicxi_keys.destructors[k](value);
        }
    }
}

/* --- threads: pthread_self returns a task's number plus 1 --- */

static void run(void *argument)
{
    struct posix_thread *posix = argument;
    nicxi_race_acquire(&posix->begins);
    posix->result = posix->begins(posix->argument);
    destroy_values(posix);
    nicxi_call(READY, "return", posix->function);
}

int nicxi_create(pthread_t *handle, const struct creation *creation, const char *call, const void *at)
{
    char where[MOST_NAMED];
    nicxi_program_begins();
    struct thread *self = nicxi_caller();
    if (!self) {
        nicxi_misuse("bring_up, begin or end calls %s at %s: only tasks may create threads", call,
                     nicxi_line(at, where));
        return EAGAIN;
    }
    nicxi_call(READY, call, creation->named);
    struct thread *made = nicxi_make_thread(run, NULL, creation->room);
    if (!made) {
        nicxi_misuse("%s calls %s at %s, but all %d tasks are in use", self->name, call, nicxi_line(at, where),
                     NICX_TASKS);
        return EAGAIN;
    }
    struct posix_thread *posix = &nicxi_posix[nicxi_number(made)];
    made->argument = posix;
    posix->begins = creation->function;
    posix->argument = creation->argument;
    posix->function = creation->named;
    posix->is_detached = creation->is_detached;
    nicxi_race_release(&posix->begins);
    nicxi_changed_memory();
    *handle = nicxi_number(made) + 1;
    return 0;
}

int __real_pthread_create(pthread_t *handle, const pthread_attr_t *how, void *(*function)(void *), void *argument);
int __wrap_pthread_create(pthread_t *handle, const pthread_attr_t *how, void *(*function)(void *), void *argument)
{
    size_t room = 0;
    int state = PTHREAD_CREATE_JOINABLE;
    if (!nicxi_is_ours())
        return __real_pthread_create(handle, how, function, argument);
    if (how) {
        pthread_attr_getdetachstate(how, &state);
        nicxi_stack_of(how, &room);
    }
    const struct creation creation = {function, argument, (const void *)(uintptr_t)function, room,
                                      state == PTHREAD_CREATE_DETACHED};
    return nicxi_create(handle, &creation, "pthread_create", HERE);
}

/* Returns the thread with this number if the driver created it, otherwise null: a scenario's task can't be joined. */
static struct posix_thread *made_of(pthread_t number)
{
    if (!number || number > MOST_THREADS || !nicxi.threads[number - 1].is_made || !nicxi.threads[number - 1].function)
        return NULL;
    return &nicxi_posix[number - 1];
}

static bool has_ended(void *posix)
{
    return ((const struct posix_thread *)posix)->is_done;
}

static int join(pthread_t number, void **result, bool tries, bool is_timed, const char *call, const void *at)
{
    struct thread *self = nicxi_caller();
    struct posix_thread *posix = made_of(number);
    if (!self || !posix)
        return ESRCH;
    if (posix->is_detached || posix->is_joined)
        return EINVAL;
    if (posix == &nicxi_posix[nicxi_number(self)])
        return EDEADLK;
    const void *object = posix->function;
    if (tries)
        nicxi_call(READY, call, object);
    else if (is_timed)
        nicxi_block_timed(self, has_ended, posix, call, object, at);
    else
        nicxi_block(self, has_ended, posix, call, object, at);
    if (!posix->is_done)
        return tries ? EBUSY : ETIMEDOUT;
    nicxi_race_acquire(posix);
    posix->is_joined = true;
    if (result)
        *result = posix->result;
    return 0;
}

int nicxi_join(pthread_t number, void **result, const char *call, const void *at)
{
    return join(number, result, false, false, call, at);
}

INTERCEPT(int, pthread_join, (pthread_t number, void **result), (number, result),
          join(number, result, false, false, "pthread_join", HERE))
INTERCEPT(int, pthread_tryjoin_np, (pthread_t number, void **result), (number, result),
          join(number, result, true, false, "pthread_tryjoin_np", HERE))
INTERCEPT(int, pthread_timedjoin_np, (pthread_t number, void **result, const struct timespec *until),
          (number, result, until), join(number, result, false, true, "pthread_timedjoin_np", HERE))

int nicxi_detach(pthread_t number, const char *call)
{
    struct posix_thread *posix = made_of(number);
    if (!posix)
        return ESRCH;
    if (nicxi_caller())
        nicxi_call(READY, call, posix->function);
    if (posix->is_detached || posix->is_joined)
        return EINVAL;
    posix->is_detached = true;
    return 0;
}

INTERCEPT(int, pthread_detach, (pthread_t number), (number), nicxi_detach(number, "pthread_detach"))

pthread_t __real_pthread_self(void);
pthread_t __wrap_pthread_self(void)
{
    const struct thread *self = nicxi_is_in_thread() ? nicxi.self : NULL;
    return self ? nicxi_number(self) + 1 : __real_pthread_self();
}

void nicxi_exit_thread(void *result, const char *call, const void *at)
{
    char where[MOST_NAMED];
    nicxi_program_begins();
    struct thread *self = nicxi_caller();
    if (!self) {
        nicxi_misuse("bring_up, begin or end calls %s at %s", call, nicxi_line(at, where));
        exit(2);
    }
    struct posix_thread *posix = &nicxi_posix[nicxi_number(self)];
    posix->result = result;
    destroy_values(posix);
    nicxi_call(READY, call, posix->function);
    nicxi_end_thread();
    abort();
}

void __real_pthread_exit(void *result) __attribute__((noreturn));
void __wrap_pthread_exit(void *result) __attribute__((noreturn));
void __wrap_pthread_exit(void *result)
{
    if (nicxi_is_ours())
        nicxi_exit_thread(result, "pthread_exit", HERE);
    __real_pthread_exit(result);
}

/* --- no-ops, because time and processors aren't modelled --- */

INTERCEPT(int, pthread_setname_np, (pthread_t number, const char *name), (number, name), 0)
INTERCEPT(int, pthread_setschedparam, (pthread_t number, int policy, const struct sched_param *how),
          (number, policy, how), 0)
INTERCEPT(int, pthread_setschedprio, (pthread_t number, int priority), (number, priority), 0)
INTERCEPT(int, pthread_setaffinity_np, (pthread_t number, size_t size, const cpu_set_t *set), (number, size, set), 0)

void nicxi_stack_of(const pthread_attr_t *how, size_t *room)
{
    pthread_attr_t usual;
    size_t size = 0, usual_size = 0;
    pthread_attr_getstacksize(how, &size);
    if (pthread_attr_init(&usual) == 0) {
        pthread_attr_getstacksize(&usual, &usual_size);
        pthread_attr_destroy(&usual);
    }
    *room = size == usual_size ? 0 : size;
}
