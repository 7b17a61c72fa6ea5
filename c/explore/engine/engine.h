/* State shared by the engine's files: the process's only scenario, and the schedule being run. */
#ifndef NICX_ENGINE_H
#define NICX_ENGINE_H

#include "../../library/look.h"
#include "../observer.h"
#include "coverage.h"
#include "fiber.h"
#include "nic82599_explore.h"

enum {
    MOST_THREADS = NICX_TASKS + NICX_HANDLERS,
    /* threads, handler starts, queue steps (receive, transmit, enables), messages, EEPROM, arrivals, the link; with
       weak memory also each thread's stores and older loads */
    MOST_ACTORS = MOST_THREADS + NICX_HANDLERS * (NICX_TASKS + 1) + 1 + 3 * 128 + 64 + 3 +
                  MOST_THREADS * (NICX_STORES + NICX_OLDER),
    MOST_POINTS = 1000000,
    USUAL_POINTS = 2000,
    USUAL_STACK = 65536,
    LEAST_STACK = 16384,
    MOST_FRAME = 16384,
    VALUES = 0x4000, /* an actor with this number or a higher one is a value of nicx_choose */
    NOBODY = 0xFFFF
};

#define NO_ADDRESS UINT32_MAX

/* What an actor did at a point (enum step_kind of ../observer.h). */
struct step {
    uint8_t kind;
    uint8_t vf;
    uint8_t status;
    bool waits;     /* the thread waits for another actor before or after this step */
    bool is_beside; /* no point: a barrier made this store reach memory */
    /* weak memory: a store that is pending, or a load that reads the thread's own pending stores */
    bool is_kept;
    bool is_own;         /* set if the store that reached memory is to own memory */
    bool is_published;   /* a pointer store: race detection saw it when the driver made it (nicxo_write) */
    bool is_overtaken;   /* a pointer store that another thread wrote before this step, which writes nothing */
    uint8_t older;       /* weak memory: the load reads the value from before this many changes */
    uint16_t of;         /* number of the queue, group, frame or link change; for a value or a store, of the thread */
    uint32_t address;    /* register address, or offset of a virtual function's access; a block lent or taken */
    uint32_t physical;   /* virtual function's access: the physical function's address, or NO_ADDRESS */
    uint32_t word;       /* value read or written; wait, lock or start: enum local; nicx_choose: the value */
    uint32_t length;     /* bytes of a memory access; nicx_choose: its bound; barrier: number of stores flushed */
    uint64_t bus;        /* address of a memory access; for a lock, its identity */
    uint8_t operation;   /* LOCAL_ATOMIC: enum operation */
    uint8_t order;       /* LOCAL_ATOMIC: the memory order in the code, in the compiler's numbering */
    uint64_t value;      /* LOCAL_ATOMIC: the value found, or the one stored */
    uint64_t other;      /* LOCAL_ATOMIC: the value afterwards, or the one expected */
    uint64_t touched[2]; /* own memory read [0] and written [1]: a set of addresses, hashed to 64 bits */
    nic_outcome outcome;
    const char *call; /* LOCAL_CALL: the name of the call on the object at `bus` */
};

/* The kind of a STEP_LOCAL. */
enum local {
    LOCAL_BEGIN,
    LOCAL_POINT,
    LOCAL_WAIT,
    LOCAL_UNTIL,
    LOCAL_PAUSE,
    LOCAL_LOCK,
    LOCAL_UNLOCK,
    LOCAL_WMB,
    LOCAL_RMB,
    LOCAL_MB,
    LOCAL_ARM,
    LOCAL_DISARM,
    LOCAL_CALL, /* a call to a library that the driver uses */
    LOCAL_LOAD, /* a load from the driver's own memory at `bus` */
    LOCAL_STORE,
    LOCAL_ATOMIC
};

/* What an atomic operation does. A compare-and-exchange that finds an unexpected value only compares. */
enum operation { LOADS, STORES, CHANGES, COMPARES };

enum thread_state {
    OFF,     /* a handler that isn't running, or a task that has ended */
    READY,   /* ready to make its next access */
    WAITING, /* waits until another actor runs */
    PAUSED,  /* waits until another actor runs, or none can run */
    UNTIL,   /* waits until its condition holds */
    LOCKED   /* waits until its lock is free */
};

/* A loop's reads: the last ones that returned something new, and how many reads since then returned nothing new. */
struct polls {
    uint32_t seen[4][2]; /* what was read, and the value */
    uint32_t next, times;
};

/* The state of a thread's stack. */
enum stack_state { NO_STACK, PARKED, BUSY };

struct thread {
    struct fiber fiber;
    const char *name;
    void (*function)(void *);
    void *argument;
    uint8_t state;
    uint8_t stack;
    bool is_service;
    bool unwinds;       /* its stack has frames to unwind when the schedule leaves it (left.h) */
    bool is_void;       /* has changed nothing visible since it waited */
    uint64_t voided;    /* the count of changes when it last acted without changing anything */
    bool pending;       /* a handler about to start, or an armed timer */
    bool is_timer;      /* a handler that no message starts */
    uint8_t older;      /* weak memory: how many changes old the value of the current load is */
    uint32_t within;    /* timer: fires within this many points after it is armed; 0: fires at rest */
    uint32_t due;       /* armed timer: from this point on, no other actor may run before it fires */
    int interrupted_by; /* task: the handler thread that interrupts it, or -1 */
    int on;             /* handler: the task that it interrupts, or -1 */
    unsigned masked;
    size_t room;     /* size of its stack in bytes; 0: the scenario's size */
    bool is_made;    /* begins when the driver creates it */
    bool is_timed;   /* its wait may end before its condition holds if no actor can run */
    unsigned rested; /* number of timeouts and pauses since the last change */
    uint64_t rested_at;
    uint64_t own;          /* how often it has acted */
    uint64_t seen, looked; /* how often others had acted when it last returned from a wait; from a wait or a pause */
    bool (*condition)(void *);
    void *condition_argument;
    nicx_mutex *lock;
    struct step next; /* the step that it is about to take */
    struct polls polls;
    const void *call;    /* where it accesses packet memory */
    const void *waits;   /* the return address of its last nicx_wait or nicx_wait_until */
    const void *waiter;  /* the caller of the function that made that call, or null */
    nicx_mutex *held[8]; /* the locks that it holds, up to eight of them */
    uint32_t locks;      /* how many locks it holds */
    uint16_t group;      /* handler: its interrupt group */
    uint8_t vector;
    int where;
    uint16_t starts, end; /* actors from `starts` up to `end` are its starts */
};

enum actor_kind {
    BY_THREAD,
    BY_START,
    BY_OLDER, /* a thread continues with a load that is older than memory */
    BY_RX,
    BY_TX,
    BY_RX_ENABLE,
    BY_TX_ENABLE,
    BY_INT,
    BY_EEPROM,
    BY_WIRE,
    BY_LINK,
    BY_STORE /* a store reaches memory */
};

struct actor {
    uint8_t kind;
    uint16_t of;             /* a thread, queue or group */
    int on;                  /* start: the task, or -1; store: its position; load: its age */
    uint32_t last;           /* the point at which it acted last, plus 1; 0 if it hasn't */
    uint32_t offered, since; /* last runnable at this point; runnable without acting since this point */
};

struct frame {
    uint8_t *bytes;
    size_t length, room;
};

/* What the scenario names but a schedule leaves out: shrinking leaves out what a failure doesn't need. Numbers and
   names remain as in the whole scenario. */
struct omitted {
    bool threads[MOST_THREADS];
    bool frames[NICX_FRAMES], links[NICX_FRAMES];
};

/* LEAVING: the schedule is over, and threads still in a call unwind their stacks (left.h). */
enum phase { CLOSED, BRINGING_UP, BEGINNING, RUNNING, ENDING, LEAVING };

/* Reported after a search: not failures themselves, but possibly the reason for one. */
struct notes {
    uint32_t strays; /* accesses to addresses without a register */
    char stray[160]; /* the first stray access, and the thread that made it */
    uint32_t beyond; /* a queue not below `queues` for which an enable was requested, plus 1 */
    uint32_t leaves; /* the thread that unwinds its stack, plus 1 (left.h) */
};

/* Called for each event: for scripts, and for the lines that a replay prints. */
typedef void nicxi_listener(void *argument, uint16_t actor, const struct step *step);

/* The state of the process's only scenario. It is global because a driver's calls (nicx_read32) pass no scenario. State
   that only one file needs is in that file: the device after bring-up in device.c, the frames inside the device in
   coverage.c, pending stores in weak.c, the notes of a replay in scenario.c, and the process's thread that runs the
   schedules in run.c. Each part below names the file that writes it, and has one of these lifetimes:

   - From nicx_open to nicx_close, which clears everything except the number of schedules. The bring-up runs once;
     nicxi_back restores the device to its state after bring-up when a schedule starts.
   - One schedule. `reset` in run.c initializes these parts before any of the driver's code runs. A part that it missed
     would make a schedule depend on earlier ones, and a failure's file would no longer reproduce it.
   - While a schedule's threads run. Checkpoints save these parts, as ranges of fields (`engine_part` in checkpoint.c).
     A field that a step changes must be in one of them.

   A search runs schedules in child processes, and their writes here are lost when they exit. Only `schedule`, `points`,
   `notes` and `coverage` point into memory shared with the search, which reads it after a crash. */
struct engine {
    /* What can run: set by nicx_open, and by `begin` for each schedule (scenario.c). Numbers and names stay the same in
       all schedules; otherwise a schedule's file would mean a different schedule. */
    const nicx_scenario *scenario;
    uint8_t phase;
    uint32_t most_points;
    struct thread threads[MOST_THREADS]; /* tasks from 0, handlers and timers from NICX_TASKS */
    uint16_t tasks, handlers, timers;
    struct frame frames[NICX_FRAMES];
    uint16_t frame_count;
    bool links[NICX_FRAMES];
    uint16_t link_count;
    struct omitted omitted; /* set while a search shrinks a failure, and from a schedule's file */
    bool is_weak;           /* stores may be late and loads old (weak.h) */
    bool is_tso;            /* as on x86: stores may be late but stay in order, and no load is old */
    bool knows_memory;      /* every access to the driver's own memory is reported (nicxi_touched) */
    bool is_program;        /* the first task is a whole program, which runs the device's steps itself */
    nicxo_bus_of *bus_of;   /* which lent memory the driver also reads through pointers, without a step; null: none */

    /* The device (device.c). */
    nic device;
    bool is_changed; /* the device has changed since it was restored; if false, it needn't be restored */
    bool is_idle;    /* after bring-up no step is possible, so none is tried until something wakes it */

    /* The actors (actors.c), in this order: threads and outside events, the device's steps starting at `steps_from`,
       stores and older loads starting at `steps_to`. A device step that had nothing to do is idle: its bit in `awake`
       is 0. It isn't tried again until another step, which may have added work for it, wakes it (nicxi_wake). Waking
       too many costs time; waking too few loses schedules. */
    struct actor actors[MOST_ACTORS];
    uint16_t count, steps_from, steps_to;
    uint64_t awake[MOST_ACTORS / 64 + 1];
    uint16_t next_frame, next_link; /* index of the next frame, and of the next link change */
    uint32_t came;                  /* frames that arrived in this schedule */

    /* The running thread (threads.c, run.c). */
    struct fiber main;
    struct thread *self; /* null for the engine itself, which runs on `main` */
    const char *asker;   /* the running scenario function that may only read, or null */

    /* The bring-up's accesses, which no thread makes (access.c). */
    struct polls outside;
    uint32_t waits; /* waits in a row without a step that changed anything */

    /* The schedule being run (run.c). The first *points entries of `schedule` are the actors, and the same entries of
       `steps` are their steps. A device step that had nothing to do is removed again: it isn't a point. */
    const nicx_chooser *chooser;
    uint16_t can[MOST_ACTORS]; /* offered to the chooser; the actor that ran last is first if it can continue */
    uint16_t *schedule;
    volatile uint32_t *points;
    struct step *steps; /* null if not requested */
    uint16_t last;      /* the last actor; for values and older loads, the thread */
    uint32_t switches;
    bool is_cut;  /* the chooser ended the schedule */
    bool is_over; /* the program ended */
    nicx_result result;
    uint64_t epoch; /* the schedule's number in this process: a lock with another number is free (threads.c) */
    /* Each act wakes the threads that wait, because it may have changed what they wait for. `changes` doesn't count
       acts in which a waiting thread only looked: two threads that poll each other act forever and change nothing. */
    uint64_t acts, changes;

    /* The step listener, the observer, and the data reported after a search. */
    nicxi_listener *listener;
    void *listener_argument;
    const nicxo_observer *observer; /* the observer, or null (observer.c) */
    struct notes *notes;
    struct coverage *coverage;
};

extern struct engine nicxi;

/* Fails the schedule with this message. If it has already failed, the first failure is kept. */
void nicxi_failed(uint8_t outcome, const char *form, ...);

/* Leaves a failed schedule: a running thread is abandoned where it is, and doesn't continue. Returns only if no thread
   runs, or in a thread that unwinds (left.h); then the caller must return too. */
void nicxi_leave(void);
/* Whether the caller may act; fails the schedule if it may only read. Publishes the driver's pointer stores first, so
   other actors may run during this call. */
bool nicxi_may_act(void);
/* Like nicxi_may_act, for a call that only orders accesses in the middle of a point: no other actor runs. */
bool nicxi_may_order(void);
/* Waits outside of threads: during the bring-up, the device runs its steps. An endless wait is reported, then the
   process exits. */
void nicxi_wait_outside(void);
/* If not null, called with the report instead of printing it; must not return. */
extern void (*nicxi_gives_up)(const char *words);
void nicxi_forget_polls(struct polls *polls);
/* The accesses outside of threads, and the blocks taken back, as a part of a checkpoint. */
struct checkpoint;
void nicxi_access_part(struct checkpoint *it);
/* Begins a phase in which no thread acts: a bring-up, or a schedule's `begin`. */
void nicxi_outside_begins(void);

/* Runs other actors until this thread is chosen or left (left.h). */
void nicxi_next(struct thread *self);

/* Notes that a chosen thread continues. */
void nicxi_went_on(struct thread *self);
/* Records a step that was taken, and passes it to the observer and the listeners. */
void nicxi_announce(const struct step *step);
void nicxi_observed(uint16_t actor, const struct step *step);

/* Returns the first index at or after `from` that isn't left out, or `count`. */
uint16_t nicxi_next_kept(const bool *omitted, uint16_t from, uint16_t count);

/* Lists the actors of a schedule. Called after its tasks and handlers are named. */
void nicxi_list_actors(void);
/* The first returns whether an actor is runnable, as far as is known without trying the actor. The second returns
   whether a thread in any state can continue. */
bool nicxi_can_act(const struct actor *actor);
bool nicxi_can_go_on(const struct thread *thread);
/* Whether a device step, given by its actor's number, is idle. */
static inline bool nicxi_is_idle(uint16_t number)
{
    return !(nicxi.awake[number / 64] >> number % 64 & 1);
}

static inline void nicxi_set_idle(uint16_t number)
{
    nicxi.awake[number / 64] &= ~(UINT64_C(1) << number % 64);
}
/* Whether the first runnable actor is the one that acted last. */
bool nicxi_goes_on(const uint16_t *can);
/* Whether all of these are device steps that may turn out to have nothing to do. */
bool nicxi_may_be_idle(const uint16_t *can, uint32_t count);
/* Whether an actor may still be offered at this point. A paused thread may still be offered if all other actors may
   turn out to be idle. */
bool nicxi_may_come(uint16_t actor, const uint16_t *can, uint32_t count);
/* Runs a device step or a link change. Returns false if it had nothing to do. */
bool nicxi_device_step(struct actor *actor, struct step *step);
/* Turns a fault of the device into a failure, unless the scenario allows it. */
void nicxi_judge(const struct step *step);
/* Wakes the device's steps that may have something to do after this step, and the threads that wait. */
void nicxi_wake(const struct step *step);
/* With more queues than this, a write to a queue's register wakes only that queue. A test raises the number, so that
   each write wakes all queues. */
enum { FEW_QUEUES = 2 };
extern uint16_t nicxi_few_queues;

/* Whether an actor's number stands for a value that nicx_choose may return. */
static inline bool nicxi_is_value(uint16_t actor)
{
    return actor >= VALUES && actor != NOBODY;
}
/* Returns the number of points at which the actor differs from the one before. */
uint32_t nicxi_switches(const uint16_t *schedule, uint32_t points);
uint64_t nicxi_sum_of_values(const uint16_t *schedule, uint32_t points);
/* Lists in `can` the timers that must fire now. Returns their number. */
uint32_t nicxi_list_due(uint16_t *can);
/* Whether a timer fires when all is at rest. */
bool nicxi_fires_at_rest(const struct actor *actor);

/* Reports an access to the driver's own memory by the running thread. Every access is reported if `knows_memory` is
   set. */
void nicxi_touched(const void *place, size_t size, bool writes);
/* After this call, this thread of the process runs the schedules, and no other thread may make a driver's calls. */
void nicxi_is_made_here(void);
/* The prefix of a driver's calls in reports: "nicx_", or another language's prefix. */
extern const char *nicxi_calls;
/* The words that reports use for a condition. */
extern const char *nicxi_condition;
/* Advice printed for a driver that uses the process's own threads or locks: to use the link form, unless the report
   card sets other words. */
extern const char *nicxi_for_threads;
/* Whether this process runs schedules for a search. */
bool nicxi_is_in_search(void);
/* Has the scenario name its tasks, handlers, frames and link changes for a schedule. */
void nicxi_begin(void);
/* Adds a frame to a schedule, copying its bytes. Returns false if there are already NICX_FRAMES frames, or if this one
   is too long. */
bool nicxi_add_frame(const uint8_t *bytes, size_t length);

/* Threads (threads.c). */
void nicxi_thread_resume(struct thread *from, struct thread *to);
bool nicxi_thread_prepare(struct thread *thread);
void nicxi_threads_close(void);
bool nicxi_lock_is_free(const nicx_mutex *lock);
/* Whether another actor has run since the thread last continued. */
bool nicxi_others_acted(const struct thread *thread);

/* Returns the value of a device register, read without side effects. */
static inline uint32_t nicxi_peek(uint32_t address)
{
    return nicl_word_at(&nicxi.device, address);
}

/* Save the device's state, restore the saved state, and drop it. */
const char *nicxi_keep(void);
void nicxi_back(void);
void nicxi_drop_kept(void);

/* Whether two ranges of memory overlap. */
static inline bool nicxi_overlap(uint64_t a, uint64_t a_length, uint64_t b, uint64_t b_length)
{
    return a < b + b_length && b < a + a_length;
}

static inline bool nicxi_is_device_step(uint8_t kind)
{
    return kind >= STEP_RX;
}

#endif
