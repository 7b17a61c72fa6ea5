/* Shared by the files of the bus; its users include bus.h. */
#ifndef BUS_INSIDE_H
#define BUS_INSIDE_H

#include "bus.h"
#include "mailbox.h"

#define BUS_FRAME_ROOM 65536 /* in bytes: MAXFRS limits a sent frame to 65,531, and the device pads up to 60 */
#define MAILBOX_REQUESTS 17  /* number of request codes counted separately; the last one counts all others */
#define MAILBOX_SHOWN 3      /* words of a message that are printed */

/* A register of the physical function, as the bus classifies it. */
struct place {
    uint8_t part, queue;
    bool is_transmit;
};

struct stray {
    uint32_t reads, writes, last, phases; /* bit p of `phases`: accessed in phase p */
};

struct message {
    uint32_t words[MAILBOX_SHOWN];
};

/* Requests from virtual functions that share a number: how many there were, and the words of the first. */
struct request {
    struct mailbox_counts counts;
    struct message asked, answered;
};

struct mailboxes {
    struct request requests[MAILBOX_REQUESTS];
    int pending[BUS_FUNCTIONS]; /* by virtual function: the unanswered request, 0 if there is none */
    uint64_t own_messages;
};

struct bus {
    nic device;
    struct bus_options options;
    struct bus_counts counts;
    unsigned int phase;
    bus_sink *sink;
    void *sink_of;
    bool is_held;       /* only the user requests steps */
    uint32_t semaphore; /* value of SWSM, if the bus answers in the device's place */
    uint32_t sync;      /* and of SW_FW_SYNC */
    struct mailboxes mailboxes;
    struct stray *strays[BUS_FUNCTIONS]; /* by function, an entry for each word */
    struct stray outside;                /* accesses beyond the window */
    struct place places[BUS_SPACE / 4];
    uint8_t frame[BUS_FRAME_ROOM]; /* the frame that the device sent last */
};

/* steps.c: reports something that the bus can't do. */
void bus_problem(struct bus *it, const char *format, ...) __attribute__((format(printf, 2, 3)));

/* answers.c: what a read returns if the device has no register there or the bus answers with another value. */
uint32_t answer_stray(struct bus *it, uint32_t address, uint32_t word);
void answer_stray_write(struct bus *it, uint32_t address, uint32_t word);
uint32_t answer_read(struct bus *it, uint32_t address, uint32_t word);
bool answer_absent_read(struct bus *it, unsigned int function, uint32_t offset, uint32_t *word);
void answer_absent_write(struct bus *it, unsigned int function, uint32_t offset, uint32_t word);
void answer_eeprom(struct bus *it);
void answer_reset(struct bus *it); /* what a reset of the device changes in these answers */

/* strays.c: accesses outside the register table. */
bool strays_begin(struct bus *it);
void strays_end(struct bus *it);
void stray_read(struct bus *it, unsigned int function, uint32_t offset);
void stray_write(struct bus *it, unsigned int function, uint32_t offset, uint32_t word);

/* mailbox.c: the requests from virtual functions. */
void mailbox_written(struct bus *it, unsigned int function, uint32_t offset, uint32_t word);

#endif
