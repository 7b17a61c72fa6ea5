/* The explorer, as seen by a program that judges a driver's schedules while they run. The program is notified of each
   step, queries the running thread and the device, and gives a verdict. The report card (c/drive) is an observer: it
   uses nothing of the explorer except this header and nic82599_explore.h. A process has one observer. The functions
   below may be called wherever nic82599_explore.h calls are allowed, and in the observer's own functions. */
#ifndef NICXO_OBSERVER_H
#define NICXO_OBSERVER_H

#include "nic82599_explore.h"

enum {
    NICXO_THREADS = NICX_TASKS + NICX_HANDLERS, /* tasks are numbered from 0, handlers from NICX_TASKS */
    NICXO_NO_THREAD = NICXO_THREADS,
    NICXO_PLACE = 160, /* room for a place in the driver's source */
    NICXO_NAME = 32    /* room for a register's name */
};

/* --- steps --- */

/* What an actor did at a point. */
enum step_kind {
    STEP_NONE,
    STEP_LOCAL, /* touches only the driver's own memory: a task begins or continues, a lock, nicx_point; also a pointer
                   store that another thread wrote first */
    STEP_READ,
    STEP_WRITE,
    STEP_VF_READ,
    STEP_VF_WRITE,
    STEP_PEEK,
    STEP_POKE,
    STEP_LEND,
    STEP_TAKE,
    STEP_START, /* a handler starts */
    STEP_VALUE, /* nicx_choose */
    STEP_STORE, /* weak memory: a store reaches memory, the device's or the driver's own */
    STEP_RX,    /* this kind and all that follow are device steps */
    STEP_TX,
    STEP_RX_ENABLE,
    STEP_TX_ENABLE,
    STEP_INT,
    STEP_EEPROM,
    STEP_ARRIVE,
    STEP_LINK
};

typedef struct nicxo_step {
    uint8_t kind;       /* enum step_kind */
    uint8_t status;     /* status returned by the nic82599.h call */
    uint8_t vf;         /* the virtual function of an access */
    bool is_outside;    /* taken in bring_up or begin */
    bool is_by_pointer; /* a store that the driver made through a pointer (nicxo_write) */
    uint8_t thread;     /* the thread that took it; NICXO_NO_THREAD if none did, or for weak memory's older loads */
    uint16_t of;        /* a device step's queue, group, frame or link change */
    uint32_t address;   /* register address, or a virtual function's offset; block lent or taken */
    uint32_t word;      /* the word read or written */
    uint64_t bus;       /* bus address of a memory access */
    uint32_t length;
    nic_outcome outcome; /* a device step's reply */
} nicxo_step;

typedef struct nicxo_observer {
    void (*see)(const nicxo_step *step); /* called after each step, except those in `end` */
    void (*publish)(void); /* called before each driver call: writes the driver's pointer stores with nicxo_write */
} nicxo_observer;

/* In bring_up: sets the observer. It observes until the scenario is closed. */
void nicxo_observe(const nicxo_observer *observer);

/* --- queries --- */

/* The running thread; device steps run on its stack too. NICXO_NO_THREAD in bring_up, begin and end, and before the
   first thread runs. */
unsigned nicxo_thread(void);
/* The thread's name, as the scenario gave it. */
const char *nicxo_thread_name(unsigned thread);
/* Whether the schedule is over and the running thread only unwinds its stack. Then each call returns immediately. */
bool nicxo_is_over(void);

/* Returns the value of a device register, read without side effects. */
uint32_t nicxo_peek(uint32_t address);
/* The name of the register at this first address: "RDT[3]". */
const char *nicxo_register(uint32_t address, char room[NICXO_NAME]);
/* Returns the first address of the register at this address. `is_low` is set if this address shows only bits 15:0. */
uint32_t nicxo_first_address(uint32_t address, bool *is_low);
/* Returns " at driver.c:31" for a step in a report, or "" if the line isn't known. */
const char *nicxo_place(const nicxo_step *step, char room[NICXO_PLACE]);

/* --- verdicts --- */

/* Fails the schedule with this outcome (enum nicx_outcome) and these words; it ends at the next point. The first of
   several failures is kept. */
void nicxo_fail(uint8_t outcome, const char *form, ...) __attribute__((format(printf, 2, 3)));
/* The outcome so far. */
uint8_t nicxo_outcome(void);
/* Appends words to the failure's message, if there is a failure. */
void nicxo_add_words(const char *form, ...) __attribute__((format(printf, 1, 2)));
/* The same, but puts them before the message. */
void nicxo_put_words_first(const char *form, ...) __attribute__((format(printf, 1, 2)));

/* --- what a driver may do beyond nic82599_explore.h --- */

/* In `begin`, after all frames are named: holds back the last `count` frames until nicxo_let_come. */
void nicxo_hold_back(uint16_t count);
/* Releases `count` more frames. Returns how many may arrive now. */
uint16_t nicxo_let_come(uint16_t count);

/* Declares that the driver also accesses lent memory through pointers. `bus_of` returns whether an address of the
   process is in lent memory, and if so, its bus address. */
typedef bool nicxo_bus_of(uint64_t at, uint64_t *bus);
void nicxo_has_pointers(nicxo_bus_of *bus_of);
/* A store that the driver made through a pointer, treated like nicx_dma_write. After the point, `source` returns the
   bytes, or null if another thread has written them to the device by then: then nothing is written. */
typedef const uint8_t *nicxo_bytes_at(uint64_t bus, size_t length);
uint8_t nicxo_write(uint64_t bus, nicxo_bytes_at *source, size_t length);
/* Calls the observer's `publish`, as happens before each driver call. */
void nicxo_publish(void);

/* Make the running thread release everything that it did so far to an object, or acquire from the object. This states
   the order of calls that the driver's caller promises. It isn't a barrier, and does nothing if accesses to the
   driver's own memory aren't observed. */
void nicxo_gives(const void *object);
void nicxo_takes(const void *object);
bool nicxo_sees_accesses(void);
/* The parts of the driver whose accesses aren't observed, and what to do about them, if other parts' accesses are. */
const char *nicxo_unseen(void);

/* --- before nicx_main --- */

/* What reports advise the driver's author to use, if that differs from the advice to a scenario's author. Null: the
   advice is the same. */
typedef struct nicxo_words {
    const char *options;     /* file of linker options that make threads and accesses visible */
    const char *for_threads; /* what to use instead of the process's own threads and locks */
} nicxo_words;

void nicxo_set_words(const nicxo_words *words);
/* Whether the driver is written in a language other than C, so that its calls aren't on the stack. */
bool nicxo_is_foreign(void);
/* What the author of such a driver can do so that the search sees the driver's own memory; null for a driver in C. */
const char *nicxo_to_be_seen(void);

#endif
