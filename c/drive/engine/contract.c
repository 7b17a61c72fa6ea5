/* What the adapter's contract says about the order of two calls, and about calls that never overlap. The search for
   data races relies on it: memory that a driver accesses only in calls ordered by the contract needs no lock. */
#include "drive.h"

enum { VECTORS = 16 };

/* The addresses of these objects identify events for the search for races: the flow resumed, a queue's call returned, a
   mailbox call returned. */
static const char flow, ended, mailbox;

static struct vector {
    bool runs;
} vectors[VECTORS];

void nicd_contract_begin(void)
{
    for (unsigned k = 0; k < VECTORS; k++)
        vectors[k].runs = false;
}

void nicd_calls(enum contract contract)
{
    nicxo_takes(&flow);
    if (contract == OF_CONTROL)
        nicxo_takes(&ended);
    else if (contract == OF_MAILBOX)
        nicxo_takes(&mailbox);
}

void nicd_called(enum contract contract)
{
    if (contract == OF_QUEUE)
        nicxo_gives(&ended);
    else if (contract == OF_CONTROL)
        nicxo_gives(&flow);
    else if (contract == OF_MAILBOX)
        nicxo_gives(&mailbox);
}

/* Orders the handler's accesses before the poll that it requests. */
static void schedule(unsigned queue)
{
    if (nicd.pollers[queue].busy)
        nicd_reach(AGAIN_CALL);
    nicd.pollers[queue].scheduled = true;
    nicxo_gives(&nicd.pollers[queue].scheduled);
}

void nicd_begin_poll(unsigned queue)
{
    nicd.pollers[queue].busy = true;
    nicd.pollers[queue].scheduled = false;
    nicxo_takes(&nicd.pollers[queue].scheduled);
}

static bool is_idle(void *given)
{
    return !((const struct vector *)given)->runs;
}

void nicd_interrupt(uint8_t number)
{
    struct vector *vector = &vectors[number];
    nicx_interrupts_off();
    if (vector->runs)
        nicx_wait_until(is_idle, vector);
    vector->runs = true;
    nicd_calls(BESIDE_ALL);
    nicxo_takes(vector);
    uint32_t queues = nicd.driver->interrupt(number);
    nicxo_gives(vector);
    vector->runs = false;
    for (unsigned k = 0; k < nicd.setup.queues; k++)
        if (queues >> k & 1)
            schedule(k);
    nicx_interrupts_on();
}
