/* Optional parts of the explorer, from c/explore/threads: the threads that a driver creates, and the detection of data
   races. A linked part sets its pointer before `main`; the pointer of a part that isn't linked is null. */
#ifndef NICX_PARTS_H
#define NICX_PARTS_H

#include "engine.h"

struct nicxi_form {
    void (*open)(void); /* called before bring_up */
    void (*keep)(void); /* called after bring_up: saves the driver's own memory */
    void (*back)(void); /* restores that memory before each schedule */
    /* whether a schedule changes nothing but what `part` and the engine's parts of a checkpoint save */
    bool (*is_known)(void);
    void (*part)(struct checkpoint *it); /* the driver's memory and the threads, as parts of a checkpoint */
    void (*begun)(void);                 /* called after begin: names the threads that the driver may create */
    void (*close)(void);
    /* called when the engine switches threads; null stands for the engine */
    void (*goes)(const struct thread *from, const struct thread *to);
    /* whether the thread holds a lock that others may want */
    bool (*holds_any)(const struct thread *thread);
    /* fails the schedule, naming what the thread waits for, if known */
    bool (*tell_wait)(const struct thread *thread, bool for_lock);
    /* called when the thread's function has returned */
    void (*ended)(struct thread *thread);
    const void *(*function_of)(const struct thread *thread); /* returns a created thread's function */
    /* Names a barrier in the driver's inline assembly: "mfence at driver.c:9". */
    bool (*assembly)(char *room, size_t size);
    /* What reports append about a completed call: ", while nothing waited", or "". */
    const char *(*beside)(const struct step *step);
    /* Names an address in memory from malloc: "malloc(driver.c:9)+0x8". */
    bool (*name)(const void *object, char *room, size_t size);
    /* The caller of the function that acts now; null if unknown. */
    const void *(*called_from)(void);
};

struct nicxi_races {
    void (*begin)(void);                   /* called when a schedule starts */
    void (*made)(const struct step *step); /* called for each step taken */
    /* A processor's pending store to own memory reached memory: its slot among the pending stores, and its address. */
    void (*landed)(unsigned processor, unsigned slot, uint64_t at);
    /* Make the running thread release everything that it did so far to an object, or acquire from the object. This
       states an order that the caller promises; it isn't a barrier. */
    void (*gives)(const void *object);
    void (*takes)(const void *object);
    /* The parts of the driver that aren't instrumented, and what to do about them; null if there are none. If there are
       some, no race is judged: the order that they make with their own loads, stores and atomics isn't seen. */
    const char *unseen;
};

/* The file of linker options for the link form; the report card has a different one. */
extern const char *nicxi_form_options;
/* Advice on making memory accesses visible to the search, for a driver in another language; null for a driver in C. */
extern const char *nicxi_to_be_seen;
extern const struct nicxi_form *nicxi_form;
extern const struct nicxi_races *nicxi_races;
/* Turns accesses to the driver's own memory into points: all accesses, or only those to a variable or in a function
   with this name. Returns null, or why not. */
extern const char *(*nicxi_ask_for_memory)(const char *name);
/* Like nicxi_ask_for_memory, for the argument of --points, or of "points" in a schedule's file: "memory" or
   "memory:NAME". It is kept for the files of failures. Returns null, or why not. */
const char *nicxi_ask_for_points(const char *words);
bool nicxi_are_points(const char *words);
extern const char *nicxi_asked_points; /* the argument of nicxi_ask_for_points, or null */

/* --- called by these parts --- */

/* Whether the caller is the search's own thread. */
bool nicxi_is_maker(void);
/* Whether a task or a handler runs, outside functions that may only read. Only then are accesses reported. */
bool nicxi_is_in_thread(void);

/* Names the tasks that the driver may create during a schedule. Each begins when the driver creates it. */
void nicxi_name_made(void);
/* Creates such a task with a stack of `room` bytes; 0: the scenario's size. Returns null if all tasks are in use. */
struct thread *nicxi_make_thread(void (*function)(void *), void *argument, size_t room);
/* Ends the running thread, inside any call. */
void nicxi_end_thread(void);

/* Adds a point in the running thread, for a call with this name on this object. */
void nicxi_call(enum thread_state state, const char *call, const void *object);
/* Like nicxi_call, but waits until one of the engine's own conditions holds. If `timed`, the wait may end at rest
   although the condition doesn't hold. */
void nicxi_call_until(bool (*condition)(void *), void *argument, bool timed, const char *call, const void *object);

/* Notes that the running thread accesses packet memory with this call. */
void nicxi_note_call(const void *at);

/* Adds a point before an access to the driver's own memory. */
void nicxi_memory_point(enum local local, uint64_t at, uint32_t size);

/* An atomic operation of the running thread. Values are known only for up to 8 bytes. */
enum atomic_kind { DO_LOAD, DO_STORE, DO_EXCHANGE, DO_ADD, DO_SUB, DO_AND, DO_OR, DO_XOR, DO_NAND, DO_COMPARE };
struct atomic {
    uint64_t at;
    uint32_t size;
    enum atomic_kind kind;
    int order;
    uint64_t operand, expected;
};
/* Adds a point before the operation. */
void nicxi_atomic_point(const struct atomic *atomic);
/* Adds a point before a store. With weak memory the store may be late: returns its slot among the pending stores
   (nicxi_keep_own), or -1 if it must be made now. */
int nicxi_store_point(const struct atomic *atomic, const void *bytes, bool releases);
/* Weak memory: makes all pending stores of the running thread reach memory. */
void nicxi_drain(void);
/* Notes the value that a load returned: a loop that keeps reading the same value counts as waiting. */
void nicxi_polled(uint64_t at, uint64_t value);
/* Notes a change to memory that other threads read. */
void nicxi_changed_memory(void);

/* Adds a point before a device step that a thread itself requests with this call. The functions below then report the
   step's result, or that the step had nothing to do. */
void nicxi_asks(const char *call);
void nicxi_asked(struct step *step);
void nicxi_asked_in_vain(void);

#endif
