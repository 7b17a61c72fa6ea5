/* Runs schedules in child processes, which a signal may end. A child writes its progress to memory that it shares with
   its parent, so the schedule it was running is known whatever happens. */
#ifndef NICX_PROCESS_H
#define NICX_PROCESS_H

#include <sys/types.h>

#include "engine.h"

/* The thread that overflowed its stack of `size` bytes; size 0: none did. */
struct overflow {
    size_t size;
    uint16_t thread;
};

struct post {
    volatile uint64_t runs, points; /* completed runs, and their points */
    volatile uint64_t run;          /* number of the current run */
    volatile uint32_t at;           /* points of the current run so far */
    volatile bool is_running;       /* a schedule is running */
    volatile bool is_found;         /* `result` is a failure of `run` */
    volatile bool is_done;          /* the process finished its work; false if it exited early */
    volatile uint32_t fine;         /* how many of the counted schedules were fine (shrink.h) */
    bool is_stale;                  /* the failure is that schedules differ from run to run */
    bool is_trial;                  /* the run is a trial before the first run */
    bool is_over;                   /* the exhaustive search is complete */
    volatile struct overflow overflow;
    uint8_t strategy;
    nicx_result result;
    /* For an endless schedule: the number of points at the end of `result` that repeat. */
    uint32_t cycle;
    struct notes notes;
    struct coverage coverage;
    pid_t process;
    uint16_t *schedule;
};

/* Allocates shared posts. Returns null on failure. */
struct post *nicxi_posts(uint32_t count);
void nicxi_free_posts(struct post *posts, uint32_t count);

/* Makes the engine record its schedule in a post. */
void nicxi_note_in(struct post *post);

/* Starts a process that does this work and exits, counting its points in the post. A process that reaches no point for
   `hang` seconds is killed. Returns false if no process can be started. */
bool nicxi_start(struct post *post, uint32_t hang, void (*work)(struct post *, void *), void *argument);

/* Called with waitpid's status after the process ended. If it didn't finish its work, the reason becomes the post's
   result. Returns whether there is a failure to report. */
bool nicxi_ended(struct post *post, int status);

/* Starts a process and waits for it. */
bool nicxi_do(struct post *post, uint32_t hang, void (*work)(struct post *, void *), void *argument);

/* Called if another thread of the process made a call that only tasks may make: reports that, and exits. */
void nicxi_refuse_thread(void);

/* After this call, a task that overflows its stack is noted in `where`, or printed to standard error if `where` is
   null. */
void nicxi_catch_overflows(volatile struct overflow *where);
const char *nicxi_overflow_words(const volatile struct overflow *overflow, char *room, size_t size);

#endif
