/* The card that all functions share: the bus with the bench's device, the guests' rings, and the device's steps. */
#ifndef VFU_CARD_H
#define VFU_CARD_H

#include <stdbool.h>
#include <stdint.h>

#include "arrivals.h"
#include "budget.h"
#include "bus.h"
#include "dma.h"
#include "function.h"
#include "offload.h"
#include "rings.h"
#include "stepper.h"
#include "watch.h"

#define CARD_FUNCTIONS_MOST 7 /* virtual functions: a root port's slot has eight functions */
#define CARD_SOCKETS 2        /* sockets of each virtual function */
#define CARD_FIFO 4096

/* The best kind of interrupts that the physical function supports. The function also supports the kinds listed before
   that. */
enum card_interrupts { CARD_INTX, CARD_MSI, CARD_MSIX };

struct card_options {
    uint8_t mac[6];
    enum card_interrupts interrupts;
    unsigned int functions; /* number of virtual functions */
    unsigned int answers;   /* enum bus_answer */
    bool has_offloads, has_legacy;
    bool has_check; /* report each access outside the guest's memory, with the register accesses before it */
    bool has_seed;  /* delay steps at random, with this seed */
    uint64_t seed;
    bool is_recorded; /* the device is recorded (nic_record, or its environment variable) */
    FILE *trace;
};

/* Receives the frames that the card sends. */
typedef void card_sink(void *to, unsigned int sender, const uint8_t *frame, size_t length);

#define CARD_ACCESSES 16

/* A register access, kept for reports. */
struct card_access {
    const struct function *function;
    uint32_t offset, word;
    bool is_write;
};

struct card {
    struct card_options options;
    /* the latest accesses; the next is stored at access_count modulo CARD_ACCESSES */
    struct card_access accesses[CARD_ACCESSES];
    uint64_t access_count;
    struct bus *bus;
    struct offload *offload; /* null: none */
    struct rings *rings;
    struct stepper stepper;
    struct budget budget;
    struct dma writer;  /* during a register write: the client that writes */
    bool is_busy;       /* work remains, but only because this turn's budget is spent */
    struct watch watch; /* accesses at which to hold the device */
    /* by function number: the function's sockets (first its own guest's, then the shadow in the PF's guest), and the
       socket that accessed the function last */
    struct function *sockets[1 + CARD_FUNCTIONS_MOST][CARD_SOCKETS];
    struct function *active[1 + CARD_FUNCTIONS_MOST];
    card_sink *sink;
    void *sink_to;
    struct arrivals arrivals;
    uint64_t lost_writes;   /* register writes while the card was being reset */
    uint64_t long_by_tag;   /* frames accepted although their tag made them longer than the device's limit */
    uint32_t reported_lost; /* one bit per client socket: the first lost write was reported */
};

/* Opens the card. Returns false if memory runs out. */
bool card_open(struct card *it, const struct card_options *options);
void card_close(struct card *it);
void card_send_to(struct card *it, card_sink *sink, void *to);

/* Adds a socket of a function. */
void card_add(struct card *it, struct function *function);

/* Called by functions: for register accesses, a reset, and a change to the client's memory. */
uint32_t card_read(struct card *it, struct function *function, uint32_t offset);
void card_write(struct card *it, struct function *function, uint32_t offset, uint32_t word);
void card_reset_function(struct card *it, struct function *function);
void card_remapped(struct card *it, const struct function *function);
/* Notes that a client changed how it receives interrupts. */
void card_rearmed(struct card *it);
/* Returns the physical function's pending enabled causes. */
uint32_t card_causes(const struct card *it);
/* Stops everything that the function's client set up. Called when that client disconnects. */
void card_client_goes(struct card *it, const struct function *function);
/* Charges the function's client for a served message. Returns false if the client's budget for this turn is spent. */
bool card_may_serve(struct card *it, const struct function *function);
/* Like card_may_serve, but called after part of a message, and without a charge. */
bool card_may_go_on(struct card *it, const struct function *function);

/* Puts a frame on the link. Returns whether the device accepted it. */
bool card_arrive(struct card *it, const uint8_t *frame, size_t length);
/* card_has_room returns whether more frames can wait in front of the queues. card_takes_frame returns whether a frame
   may arrive in this turn. */
bool card_has_room(const struct card *it);
bool card_takes_frame(const struct card *it);

/* Begins a turn of the loop, in which each client gets a new budget (budget.h). */
void card_begin_turn(struct card *it);
/* card_pump runs the due device steps, as many as this turn's budgets allow. Returns whether to call it again soon.
   card_is_busy returns whether to do so immediately. */
bool card_pump(struct card *it);
bool card_is_busy(const struct card *it);
/* Run steps requested at the control socket, as many as BUDGET_ASKED allows. Return the number of received descriptors
   or sent messages. */
unsigned int card_receive(struct card *it);
unsigned int card_messages(struct card *it);
void card_transmit(struct card *it, uint16_t queue);
/* Enables or disables a side of a queue as requested. Returns false if nothing was requested. */
bool card_enable(struct card *it, bool is_transmit, uint16_t queue);
/* Returns whether the last request's steps stopped because the request's budget was spent. Repeating the request does
   the remaining work. */
bool card_has_left_some(const struct card *it);

/* Plugs the cable in or unplugs it. Returns the device's status. */
uint8_t card_link(struct card *it, bool is_up);
/* Starts to delay steps at random with this seed, or (null) stops doing so. */
void card_seed(struct card *it, const uint64_t *seed);
/* Holds the device: it only runs steps that are requested. */
void card_hold(struct card *it);
/* Ends the hold: requested changes of queues and the EEPROM take effect, and steps run as before. */
void card_go(struct card *it);
/* Fetches the next descriptors into the device, so that `why` can report them. */
void card_give_due(struct card *it);
/* Prints a line for each due step. */
void card_tell_due(const struct card *it, FILE *to);

#endif
