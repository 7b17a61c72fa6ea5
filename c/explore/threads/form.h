/* The threads that a driver creates: calls to the C library's thread functions become tasks, locks and points. With
   --wrap the linker replaces NAME with this archive's __wrap_NAME in the driver's code alone; the rest of this archive
   calls __real_NAME. docs/explore.md says how to link a program. */
#ifndef NICX_THREADS_FORM_H
#define NICX_THREADS_FORM_H

#include <pthread.h>

#include "../engine/checkpoint.h"
#include "../engine/parts.h"

enum { MOST_HELD = 16, MOST_KEYS = 64, OUTSIDE = MOST_THREADS, MOST_NAMED = 96 };

/* An object that a thread holds, and where the thread took it. */
struct held {
    const void *object;
    const void *at, *caller;
};

/* What the POSIX calls need to know about a thread, in addition to the engine's data. */
struct posix_thread {
    const void *object; /* what the thread waits for; below: the call, its place, and the caller */
    const char *call;
    const void *at, *caller;
    bool is_lock;          /* the thread waits for a lock, which some thread holds */
    bool may_wake;         /* the thread was waiting when a signal was sent */
    const void *condition; /* the condition variable that the thread waits for */
    struct held held[MOST_HELD];
    unsigned locks;
    void *result;
    bool is_done, is_detached, is_joined, runs_destructors;
    void *(*begins)(void *);
    void *argument;
    const void *function; /* the driver's function that the thread starts with */
    void *values[MOST_KEYS];
};

/* Indexed by a thread's number; the last entry is for callers outside the search's threads. */
extern struct posix_thread nicxi_posix[MOST_THREADS + 1];

/* The address of the call to the current function. */
#define HERE ((const char *)__builtin_return_address(0) - 1)

/* Whether a thread call belongs to the search: a scenario is open, and the caller is the search's own thread. */
static inline bool nicxi_is_ours(void)
{
    return nicxi.phase != CLOSED && nicxi_is_maker();
}

/* Intercepts a library call: evaluates `ours` if `holds`, and otherwise calls the original. */
#define INTERCEPT_IF(holds, type, name, parameters, arguments, ours)                                                   \
    type __real_##name parameters;                                                                                     \
    type __wrap_##name parameters                                                                                      \
    {                                                                                                                  \
        return (holds) ? (ours) : __real_##name arguments;                                                             \
    }
#define INTERCEPT(type, name, parameters, arguments, ours)                                                             \
    INTERCEPT_IF(nicxi_is_ours(), type, name, parameters, arguments, ours)

static inline unsigned nicxi_number(const struct thread *thread)
{
    return (unsigned)(thread - nicxi.threads);
}

/* The first thread of a whole program, until it creates another one: nothing that it does is a point. Null
   otherwise. */
extern struct thread *nicxi_alone;

/* Returns the calling task, or null for bring_up, begin and end. Fails for functions that may only read. */
static inline struct thread *nicxi_caller(void)
{
    if (!nicxi_may_act())
        return NULL;
    return nicxi_alone ? nicxi_alone : nicxi.phase == RUNNING ? nicxi.self : NULL;
}

/* Reports a call that isn't allowed. Doesn't return in a task. */
void nicxi_misuse(const char *form, ...) __attribute__((format(printf, 1, 2)));
/* Refuses a call that isn't intercepted: reported in a task, ignored elsewhere. */
void nicxi_refuse(const char *call, const void *at);

/* Names an address: "driver.c:31" or its function; for an object, its name or kind. */
const char *nicxi_line(const void *at, char room[MOST_NAMED]);
/* Like nicxi_line, and adds the line of the function's caller, if `caller` isn't null: "regs.h:9 < driver.c:31". */
const char *nicxi_line_by(const void *at, const void *caller, char room[MOST_NAMED]);
/* Returns the line of the thread's current call, taken from its stack. */
const char *nicxi_line_now(const void *at, char room[MOST_NAMED]);
const char *nicxi_name(const void *object, const char *kind, char room[MOST_NAMED]);

/* Waits until the condition holds. A deadlock's report names the object. */
void nicxi_block(struct thread *self, bool (*condition)(void *), void *argument, const char *call, const void *object,
                 const void *at);
/* Waits until the condition holds, or until the time is over. Returns whether the condition holds. */
bool nicxi_block_timed(struct thread *self, bool (*condition)(void *), void *argument, const char *call,
                       const void *object, const void *at);
/* Waits for a lock, which some thread holds. */
void nicxi_block_lock(struct thread *self, bool (*condition)(void *), void *argument, const char *call,
                      const void *object, const void *at);

void nicxi_hold(struct thread *self, const void *object, const void *at);
void nicxi_drop(struct thread *self, const void *object);

/* Locks a mutex (waiting, trying, or waiting for a limited time); unlocks it. All return what the POSIX calls do. */
enum how { BLOCKING, TRYING, TIMED };
int nicxi_mutex_lock(pthread_mutex_t *mutex, enum how how, const char *call, const void *at);
int nicxi_mutex_unlock(pthread_mutex_t *mutex, const char *call, const void *at);
int nicxi_cond_wait(pthread_cond_t *cond, pthread_mutex_t *mutex, bool is_timed, const char *call, const void *at);
int nicxi_cond_signal(pthread_cond_t *cond, bool is_all, const char *call, const void *at);
/* Whether a call signals a condition variable on which no thread is waiting. */
bool nicxi_wakes_nobody(const char *call, const void *object);
/* For a task that waits for a condition variable: "; wake signalled it at driver.c:9, but nothing was waiting", or
   "". */
const char *nicxi_vain_words(const struct posix_thread *posix, char room[2 * MOST_NAMED]);
int nicxi_once(pthread_once_t *once, void (*function)(void), const char *call, const void *at);
int nicxi_detach(pthread_t number, const char *call);

/* Mutex operations, for condition variables. */
bool nicxi_mutex_is_free(const pthread_mutex_t *mutex);
bool nicxi_mutex_is_mine(const struct thread *self, const pthread_mutex_t *mutex);
void nicxi_mutex_take(struct thread *self, pthread_mutex_t *mutex, unsigned count, const void *at);
unsigned nicxi_mutex_give(struct thread *self, pthread_mutex_t *mutex);

/* Whether a schedule changes nothing but what a checkpoint saves (outside.c). */
bool nicxi_stays_inside(void);
/* Set by calls that change something else; and in a search that discards what the program prints. */
extern bool nicxi_is_outside, nicxi_is_silent;

/* Finds a barrier or an exchange in the driver's inline assembly. Returns its name, or null. */
const char *nicxi_find_assembly(const void **where);

/* The driver's variables, and its memory from malloc. */
void nicxi_state_open(void);
void nicxi_state_keep(void);
void nicxi_state_back(void);
void nicxi_state_close(void);
void nicxi_state_part(struct checkpoint *it);
/* Other parts of a checkpoint: the stacks of calls, the clock, and C11's threads. */
void nicxi_callers_part(struct checkpoint *it);
void nicxi_time_part(struct checkpoint *it);
void nicxi_c11_part(struct checkpoint *it);
/* A whole program's part; null if no whole program is searched. */
extern void (*nicxi_program_part)(struct checkpoint *it);
void nicxi_state_goes(const struct thread *from, const struct thread *to);

/* Called in a searched whole program: other actors may run after this call, because the program creates a thread, or
   waits. */
void nicxi_program_begins(void);
/* Called when the program opens a controller. Returns whether the controller is the search's. */
extern bool (*nicxi_program_opens)(uint8_t vfs, uint16_t fifo, uint32_t blocks, void **device);
/* Called when the program ends. Doesn't return if a schedule is running. */
extern void (*nicxi_program_ends)(int status);

#endif
