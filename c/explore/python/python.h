/* The engine for code in Python: each of its stacks is a thread of the process, because the interpreter keeps
   per-thread state. One of them runs at a time. Used by scenarios (explore.c) and by drivers on the report card
   (drive/python).

   The modules nic82599.explore and nic82599.drive call the functions named nicp_* through ctypes. */
#ifndef NICP_PYTHON_H
#define NICP_PYTHON_H

#include <setjmp.h>
#include <stdbool.h>
#include <stddef.h>
#include <stdint.h>

struct source_line;

/* Special results of a function in Python, and of a driver's call. */
enum {
    NICP_RAISED = -1, /* the function raised an exception; its message was passed to nicp_set_words */
    NICP_OVER = -2    /* the schedule is over: the thread must leave it */
};

/* Callbacks of a module. */
struct nicp_python {
    int64_t (*call)(uint32_t function, uint64_t a, uint64_t b, uint64_t c); /* calls one of its functions, by number */
    /* starts a thread, which must call nicp_live */
    void (*begin_thread)(void *host);
    unsigned (*lines)(struct source_line *lines, unsigned most); /* the lines that led to the current call */
};

/* Called by the main thread first. `condition` is the number of the function that evaluates a condition, given by its
   own number. `foreign` reports a call from a thread that isn't the engine's. */
void nicp_open(const struct nicp_python *given, uint32_t condition, void (*foreign)(void));
/* Calls a function in Python. Doesn't return if the schedule is over. */
int64_t nicp_ask(uint32_t function, uint64_t a, uint64_t b, uint64_t c);
/* Returns the message of an exception or a fault. */
const char *nicp_words(void);
void nicp_set_words(const char *text);

/* Where a thread jumps to when it leaves its schedule: to its innermost call, from which an exception ends the frames
   of Python; otherwise to its beginning. */
struct nicp_way {
    jmp_buf place;
    struct nicp_way *outer;
};

/* Returns the running thread's innermost nicp_way, or null if the thread isn't the engine's. */
struct nicp_way **nicp_way(void);
/* Jumps to the running thread's innermost nicp_way. */
void nicp_leave(void);
/* The first returns whether the running thread must leave its schedule. The second is called if the thread makes a call
   nevertheless, and never returns if the thread keeps making calls. */
bool nicp_is_left(void);
void nicp_calls_on(void);
/* Called before each call. Returns whether one of the engine's threads makes it, and needn't leave its schedule. */
bool nicp_may_call(void);

/* --- stacks --- */

void nicp_open_stacks(void (*begin_thread)(void *host));
void nicp_live(void *host);
/* If not null, called when a schedule is over, before its threads leave it. */
extern void (*nicp_at_end)(void);
/* A thread that reaches no point for this many seconds counts as hung; 0: no limit, or another process watches. */
extern uint32_t nicp_hang;

/* A driver's call. Returns its result, or NICP_OVER. The thread returns here too if the schedule ends during the
   call. */
#define NICP_CALL(name, parameters, expression)                                                                        \
    int64_t name parameters;                                                                                           \
    int64_t name parameters                                                                                            \
    {                                                                                                                  \
        struct nicp_way way;                                                                                           \
        volatile int64_t answer = NICP_OVER;                                                                           \
        if (!nicp_may_call())                                                                                          \
            return NICP_OVER;                                                                                          \
        struct nicp_way **ways = nicp_way();                                                                           \
        way.outer = *ways;                                                                                             \
        *ways = &way;                                                                                                  \
        if (setjmp(way.place) == 0)                                                                                    \
            answer = (int64_t)(expression);                                                                            \
        else                                                                                                           \
            answer = NICP_OVER;                                                                                        \
        *ways = way.outer;                                                                                             \
        return answer;                                                                                                 \
    }

#endif
