#include "explain.h"

#include <inttypes.h>
#include <stdio.h>
#include <stdlib.h>
#include <string.h>
#include <unistd.h>

#include "dpdk.h"
#include "run.h"
#include "verdict.h"

#define WHY 4096
#define WORDS 200
#define DD (UINT64_C(1) << 32) /* in the second half of a transmit descriptor */

const char *writing_file;
unsigned int writing_line;
static unsigned int refusals;

/* ---- frames that the device refuses ---- */

/* Returns the library's first line about a receive queue, or its first line. */
static const char *why_waiting(void)
{
    static char text[WHY];
    char *at = text;
    *text = 0;
    nic_why(bus_device(run_bus), text, sizeof text);
    if (strncmp(text, "rx ", 3) != 0 && (at = strstr(text, "\nrx ")) != NULL)
        at++;
    if (!at)
        at = text;
    at[strcspn(at, "\n")] = 0;
    return at;
}

void refused(const char *who, unsigned int frame)
{
    if (refusals++ == 0)
        problem("%sthe device didn't accept frame %u: %s", who, frame, why_waiting());
}

void refused_end(void)
{
    if (refusals > 1)
        problem("the device didn't accept %u more frames either", refusals - 1);
    refusals = 0;
}

/* ---- faults ---- */

/* Returns whether a descriptor is as the driver initialized it: 0, apart from the DD bit that it sets in each transmit
   descriptor. */
static bool is_unwritten(bool is_transmit, uint16_t queue, uint16_t slot)
{
    uint64_t words[2] = {1, 1};
    uint64_t ring = bus_peek(run_bus, is_transmit ? NIC_TDBAL(queue) : NIC_RDBAL(queue)) |
                    (uint64_t)bus_peek(run_bus, is_transmit ? NIC_TDBAH(queue) : NIC_RDBAH(queue)) << 32;
    nic_dma_read(bus_device(run_bus), ring + (uint64_t)slot * BUS_SLOT, (uint8_t *)words, sizeof words);
    return words[0] == 0 && (words[1] & ~(is_transmit ? DD : 0)) == 0;
}

/* Prints where the driver wrote the register that made the device act. */
static void tell_line(char *words)
{
    const char *name = writing_file ? strrchr(writing_file, '/') : NULL;
    *words = 0;
    if (writing_file)
        snprintf(words, WORDS, "; the tail was written at %s:%u", name ? name + 1 : writing_file, writing_line);
}

void explain_fault(void *of, bool is_transmit, const nic_outcome *outcome)
{
    uint16_t queue = outcome->queue;
    char line[WORDS];
    (void)of;
    tell_line(line);
    problem("queue %u, %s slot %u: fault: %s, bus address 0x%" PRIx64 "%s%s", queue,
            is_transmit ? "transmit" : "receive", outcome->slot, nic_fault_name(outcome->why), outcome->bus,
            is_unwritten(is_transmit, queue, outcome->slot)
                ? ": the slot has no descriptor: the tail was moved past it before it was written"
                : "",
            line);
}

/* ---- packets that the driver freed twice ---- */

/* The pool can no longer be used, so nothing is closed. */
static void give_up(void)
{
    _exit(verdict());
}

void expect_different(struct rte_mbuf *const *packets, unsigned int count)
{
    for (unsigned int i = 1; i < count; i++)
        for (unsigned int k = 0; k < i; k++)
            if (packets[i] == packets[k]) {
                problem("the pool returned packet %p twice", (void *)packets[i]);
                reason("the driver freed packet %p twice", (void *)packets[i]);
                give_up();
            }
}

static int by_address(const void *left, const void *right)
{
    uintptr_t a = (uintptr_t) * (void *const *)left, b = (uintptr_t) * (void *const *)right;
    return (a > b) - (a < b);
}

/* Takes every packet out of the pool, counts those that came twice, and puts all back. */
void expect_freed_once(void)
{
    size_t room = 2 * (size_t)pool->size, count = 0, twice = 0;
    void **all = malloc(2 * room * sizeof *all), **sorted = all + room;
    if (!all)
        rte_exit(1, "out of memory\n");
    while (count < room && rte_mempool_get(pool, &all[count]) == 0)
        count++;
    memcpy(sorted, all, count * sizeof *all);
    qsort(sorted, count, sizeof *sorted, by_address);
    void *first = NULL;
    for (size_t i = 1; i < count; i++)
        if (sorted[i] == sorted[i - 1] && twice++ == 0)
            first = sorted[i];
    for (size_t i = count; i > 0; i--)
        rte_mempool_put(pool, all[i - 1]);
    free(all);
    if (twice == 0)
        return;
    problem("packets that are in the pool twice: %zu", twice);
    reason("the driver freed packets twice: %zu of them, the first is %p", twice, first);
    give_up();
}
