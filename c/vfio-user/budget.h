/* Limits how much work the server does for one client before other clients have their turn. Work is measured in bytes
   moved; work that moves none, such as a register access, is charged as a number of bytes. Each client pays for its own
   messages and for what its rings do. In each turn of the server's loop each payer gets BUDGET_PIECE, and a client that
   has spent it waits for the next turn. The budget can be overdrawn by at most one step: a descriptor with its 65,535
   bytes, a message of 4,096 bytes, a segment.

   The cost of a message isn't always known: the kernel notifies everything that watches an eventfd or a socket, and a
   client can have hundreds of thousands of watchers. So time is limited too: after BUDGET_MICROSECONDS, a client's
   remaining messages, a function's remaining interrupts and the wire's remaining frames wait for the next turn. The
   first of each is always processed. */
#ifndef VFU_BUDGET_H
#define VFU_BUDGET_H

#include <stdbool.h>
#include <stddef.h>
#include <stdint.h>

#define BUDGET_PIECE (512u << 10)  /* budget of a client in each turn */
#define BUDGET_ASKED (8u << 20)    /* budget of a request at the control socket */
#define BUDGET_STEP 512u           /* cost of a descriptor, a segment, or a frame from the wire */
#define BUDGET_MESSAGE 1024u       /* cost of a client's message */
#define BUDGET_ACCESS 128u         /* cost of a register access */
#define BUDGET_MAP 8192u           /* cost of mapping or unmapping a range of memory */
#define BUDGET_RING 32768u         /* cost of a change to a ring's length */
#define BUDGET_RESET 32768u        /* cost of a card reset, or of a function reset by its client */
#define BUDGET_EXPECTED (1u << 20) /* bytes of expected frames built in each turn */
#define BUDGET_INTERRUPTS 64u      /* interrupt messages of a function in each turn */
#define BUDGET_MICROSECONDS 5000u  /* time limit per turn: a client's messages, a function's interrupts, wire frames */

/* The payers: clients by their sockets (dma_socket), rings without an owner and the wire, requests at the control
   socket. */
#define BUDGET_WIRE 15u
#define BUDGET_CONTROL 16u
#define BUDGET_PAYERS 17u

struct budget {
    size_t left[BUDGET_PAYERS];
    unsigned int payer;
};

/* Begins a turn of the loop. */
static inline void budget_begin_turn(struct budget *it)
{
    for (unsigned int payer = 0; payer < BUDGET_CONTROL; payer++)
        it->left[payer] = BUDGET_PIECE;
}

/* Gives a request at the control socket a new budget, and charges the work from now on to it. */
static inline void budget_ask(struct budget *it)
{
    it->payer = BUDGET_CONTROL;
    it->left[BUDGET_CONTROL] = BUDGET_ASKED;
}

static inline void budget_spend(struct budget *it, size_t bytes)
{
    size_t *left = &it->left[it->payer];
    *left -= bytes < *left ? bytes : *left;
}

static inline bool budget_is_spent(const struct budget *it)
{
    return it->left[it->payer] == 0;
}

/* Returns the current time in microseconds, for budget_is_late. */
uint64_t budget_time(void);
/* Returns whether work that began at this time has used up its share. */
bool budget_is_late(uint64_t began);

#endif
