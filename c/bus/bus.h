/* The bus between a driver and the bench's device: registers, shared memory, device steps, frames and interrupts. It
   needs only the C library (nic82599.h). A process may have several buses, each called by one thread.

   Functions are numbered as the library numbers groups: 0 is the physical function, v + 1 virtual function v. Each has
   a window of registers, which are addressed by their offsets in it.

   The bench does nothing by itself, so the bus runs the steps. A read of RXDCTL or TXDCTL, which drivers poll,
   runs the queue's enable step; a write that disables the queue runs its disable step. A read of EERD runs the EEPROM
   step, and a write to TDT sends everything that is queued. The user of the bus requests receive steps and messages. */
#ifndef BUS_H
#define BUS_H

#include <stdbool.h>
#include <stddef.h>
#include <stdint.h>
#include <stdio.h>

#include "nic82599.h"

#define BUS_PHYSICAL 0u
#define BUS_FUNCTIONS 64 /* the physical function and up to 63 virtual ones */
#define BUS_QUEUES 128
#define BUS_SPACE 0x20000u         /* bytes in the physical function's register window */
#define BUS_FUNCTION_SPACE 0x4000u /* bytes in a virtual function's register window */
#define BUS_PHASES 24
#define BUS_SLOT 16 /* bytes of a descriptor */
#define BUS_NAME 64 /* bytes of a register's name */

struct bus;

/* Answers that the bus returns in the device's place. bus_tell_answers prints what they are. */
enum bus_answer {
    BUS_SWSM = 1,      /* the semaphore between drivers */
    BUS_ANLP1 = 2,     /* the state of the negotiation with the link partner */
    BUS_EICS = 4,      /* a read of EICS returns EICR's causes and clears none */
    BUS_EERD = 8,      /* EEPROM reads complete while master disable is set */
    BUS_ABSENT = 16,   /* a virtual function for which the mode has no pool */
    BUS_FWSM = 32,     /* the state of the firmware that the card would have */
    BUS_RXPBSIZE = 64, /* the size of the packet buffer */
    BUS_IPSEC = 128,   /* whether the card encrypts: it doesn't */
    BUS_SYNC = 256,    /* the owners of what drivers and the firmware share */
    BUS_ALL = 511
};

/* The kind of queue register that an access addresses. */
enum bus_part {
    BUS_OTHER, /* not a queue register listed below */
    BUS_BASE_LOW,
    BUS_BASE_HIGH,
    BUS_LENGTH,
    BUS_HEAD,
    BUS_TAIL,
    BUS_SWITCH,    /* RXDCTL or TXDCTL */
    BUS_SRRCTL,    /* at either of its addresses */
    BUS_BACK_LOW,  /* TDWBAL: low half of the head write-back address */
    BUS_BACK_HIGH, /* TDWBAH: high half */
    BUS_EEPROM     /* EERD, which belongs to no queue */
};

/* An access to a register. The bus looks up only once which register it is. */
struct bus_access {
    unsigned int function;
    uint32_t offset;  /* offset in the function's window */
    uint32_t address; /* physical function's address; BUS_SPACE if a virtual function has no register there */
    uint8_t part;     /* enum bus_part */
    bool is_transmit;
    uint8_t queue; /* number of the queue in the device */
};

/* Callbacks of the bus. Each gets `of` as its first argument, and each may be null. */
struct bus_calls {
    void *of;

    /* ---- registers ---- */

    void (*reading)(void *of, unsigned int function, uint32_t offset); /* before a read */
    /* Called with the value that a read returned. Returns the value that the driver gets. */
    uint32_t (*read)(void *of, const struct bus_access *access, uint32_t word);
    /* Called with a written value before the device sees it. Returns the value that the device gets. A tail write hands
       over descriptors, and a head write sets the first descriptor that the next tail write hands over. */
    uint32_t (*writing)(void *of, const struct bus_access *access, uint32_t word);
    void (*written)(void *of, const struct bus_access *access); /* after a write and the steps that it runs */
    void (*reset)(void *of, uint16_t queue);                    /* before a reset, which sets heads and tails to 0 */

    /* ---- memory ---- */

    /* returns the address of these bytes in this process; null if they aren't in it */
    void *(*at)(void *of, uint64_t bus, size_t length);
    /* after a receive step wrote part of a frame or a descriptor */
    void (*wrote)(void *of, uint64_t bus, size_t length);
    /* after a transmit step wrote back a descriptor or the head */
    void (*wrote_back)(void *of, uint16_t queue, uint64_t bus);

    /* ---- steps ---- */

    /* Called before a transmit step, or after a receive step that wrote something. Returns whether to run the next
       step. */
    bool (*stepping)(void *of, bool is_transmit, uint16_t queue);
    /* A receive descriptor at this bus address was filled; `ends` is set if it is the frame's last descriptor. */
    void (*filled)(void *of, uint16_t queue, uint64_t descriptor, bool ends);
    void (*message)(void *of, unsigned int function, unsigned int vector); /* delivers an interrupt message */
    /* Called for a device fault, with the slot at the head. If null, a line on standard error reports it. */
    void (*fault)(void *of, bool is_transmit, const nic_outcome *outcome);
    /* Called when the bus can't do something. If null, a line on standard error reports each of the first twenty. */
    void (*problem)(void *of, const char *what);
};

struct bus_options {
    /* MAC in the EEPROM, which a reset writes to RAL[0] and RAH[0]; zeros mean 02:00:00:00:82:99 */
    uint8_t mac[6];
    uint8_t functions;         /* number of virtual functions, at most 63 */
    uint16_t fifo;             /* frames that can wait in front of the queues, 1 to 4,096 */
    unsigned int answers;      /* enum bus_answer, ORed together */
    bool acts_at_writes;       /* enables and the EEPROM take effect when requested, not when polled */
    const char *const *phases; /* names of the run's phases, at most BUS_PHASES, then null; null: one phase */
    struct bus_calls calls;
    FILE *trace; /* gets a line for each access; null: none */
    /* For tests: corrupt one byte of the frame with this number, counted from 1, on its way; 0: none */
    uint64_t turn_in, turn_out;
};

/* Counts since the bus was opened. */
struct bus_counts {
    struct {
        uint64_t reads, writes, waited; /* accesses; microseconds of waiting requested by the driver */
    } in[BUS_PHASES];
    uint64_t accesses[BUS_FUNCTIONS];
    uint64_t messages[BUS_FUNCTIONS]; /* messages, and a bit for each vector used */
    uint32_t vectors[BUS_FUNCTIONS];
    uint64_t receive_steps, transmit_steps, frames_in, frames_out, enables, eeprom_words;
    uint64_t absent_reads, absent_writes; /* accesses by absent virtual functions (bus_is_absent) */
    uint64_t answered[9];                 /* how often each answer was given, by bit number of enum bus_answer */
    uint64_t faults, problems;            /* 0 in a run without problems */
    uint64_t fault_whys[16];              /* faults by enum nic_fault */
    uint64_t drops, not_let_in;           /* frames dropped by receive steps and at arrival; by enum nic_why: */
    uint64_t drop_whys[16], arrive_whys[16];
};

/* ---- opening and closing ---- */

/* Opens the bench with its link up and an EEPROM. Returns null if memory runs out. bus_close ends it. */
struct bus *bus_open(const struct bus_options *options);
void bus_close(struct bus *it);
/* Returns the device itself, for what the bus doesn't offer. */
nic *bus_device(struct bus *it);
const struct bus_counts *bus_counts(const struct bus *it);

/* bus_enter sets the run's current phase by number. bus_phase_name returns a phase's name. */
void bus_enter(struct bus *it, unsigned int phase);
const char *bus_phase_name(const struct bus *it, unsigned int phase);

/* ---- registers ---- */

uint32_t bus_read(struct bus *it, unsigned int function, uint32_t offset);
void bus_write(struct bus *it, unsigned int function, uint32_t offset, uint32_t word);
void bus_wait(struct bus *it, unsigned int microseconds);
/* While the bus is held, it runs no steps by itself: its user also requests the steps for enables, the EEPROM and
   sending. */
void bus_hold(struct bus *it, bool is_held);
/* Sends everything in the queue, as a write to TDT does unless the bus is held. */
void bus_transmit(struct bus *it, uint16_t queue);
/* Runs the enable step of a queue, or the EEPROM step. Returns whether it did anything. */
bool bus_enable(struct bus *it, bool is_transmit, uint16_t queue);
bool bus_eeprom(struct bus *it);

/* Returns the word in the physical function's register at this address, without side effects; 0 if there is no
   register. */
uint32_t bus_peek(const struct bus *it, uint32_t address);

/* Writes the name and the offset of a function's register to `room`, such as "RDT[3] (0x010d8)", and returns it. */
const char *bus_register_name(unsigned int function, uint32_t offset, char room[BUS_NAME]);

/* Returns the number of queues in a pool according to GCR_EXT: 8, 4 or 2; 0 without pools. */
unsigned int bus_pool_queues(const struct bus *it);

/* Returns whether a virtual function has no registers: the device lacks it, or GCR_EXT's mode has no pool for it. */
bool bus_is_absent(const struct bus *it, unsigned int function);

/* ---- frames ---- */

/* Receives the frames that the device sends, with `of` as its first argument. Null discards them. */
typedef void bus_sink(void *of, uint16_t queue, const uint8_t *frame, size_t length);
void bus_send_to(struct bus *it, bus_sink *sink, void *of);

/* Puts a frame on the link. Returns whether the device accepted it. */
bool bus_arrive(struct bus *it, const uint8_t *frame, size_t length);

/* Runs receive steps until the device has nothing to do. Returns the number of descriptors filled. */
unsigned int bus_receive(struct bus *it);

/* Returns the number of slots that the device still owns in a receive queue, or in the enabled queue with the
   fewest. */
unsigned int bus_room(const struct bus *it, uint16_t queue);
unsigned int bus_least_room(const struct bus *it);

/* Returns whether the device is at rest: no step of any queue below `queues` does anything. */
bool bus_is_settled(struct bus *it, uint16_t queues);

/* ---- interrupts ---- */

/* Takes and delivers all due messages of all functions. Returns how many there were. */
unsigned int bus_messages(struct bus *it);
/* Takes and delivers a function's message if one is due. Returns whether it did. */
bool bus_message(struct bus *it, unsigned int function);

/* Returns whether the card's interrupt line is asserted for a cause that belongs to no queue: the cause is set in EICR
   and EIMS. */
bool bus_line(const struct bus *it);

/* Prints a fault on standard error, as a bus without the callback `fault` does. */
void bus_print_fault(bool is_transmit, const nic_outcome *outcome);

/* ---- answers ---- */

/* Returns the set of answers in use, and the bit of the answer with this name (as after --without), 0 if there is
   none. */
unsigned int bus_answers(const struct bus *it);
/* Returns whether the bus answers reads of this register, which the device lacks. */
bool bus_answers_at(const struct bus *it, uint32_t address);
unsigned int bus_answer_named(const char *name);
/* Prints a line for each answer in the set. */
void bus_tell_answers(unsigned int answers);

#endif
