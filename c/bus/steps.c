/* The device's steps that a run requests, and their results: frames and messages. */
#include <inttypes.h>
#include <stdarg.h>

#include "inside.h"

#define VECTORS 16
#define OTHER_CAUSES 0x3FFF0000u /* EICR's causes that belong to no queue */
#define WHYS 16
#define PROBLEMS_SHOWN 20
#define PROBLEM_ROOM 128

void bus_problem(struct bus *it, const char *format, ...)
{
    const struct bus_calls *calls = &it->options.calls;
    char what[PROBLEM_ROOM];
    va_list rest;
    it->counts.problems++;
    va_start(rest, format);
    vsnprintf(what, sizeof what, format, rest);
    va_end(rest);
    if (calls->problem)
        calls->problem(calls->of, what);
    else if (it->counts.problems <= PROBLEMS_SHOWN)
        fprintf(stderr, "wrong: %s\n", what);
}

/* Prints a fault. Only `not lent` has an address. */
void bus_print_fault(bool is_transmit, const nic_outcome *outcome)
{
    char more[96] = "";
    if (outcome->why == NIC_FAULT_NOT_LENT)
        snprintf(more, sizeof more, ", bus address 0x%" PRIx64, outcome->bus);
    else if (outcome->why == NIC_FAULT_TOO_LONG)
        snprintf(more, sizeof more, ": the bytes since the last descriptor with EOP exceed the frame limit");
    fprintf(stderr, "bus: a fault in %s, queue %u slot %u: %s%s\n", is_transmit ? "sending" : "receiving",
            outcome->queue, outcome->slot, nic_fault_name(outcome->why), more);
}

/* Reports a fault. The device reports no slot; it is the one at the head. */
static void fault(struct bus *it, bool is_transmit, const nic_outcome *reported)
{
    const struct bus_calls *calls = &it->options.calls;
    nic_outcome outcome = *reported;
    outcome.slot = (uint16_t)bus_peek(it, is_transmit ? NIC_TDH(outcome.queue) : NIC_RDH(outcome.queue));
    it->counts.faults++;
    it->counts.fault_whys[outcome.why % WHYS]++;
    if (calls->fault)
        calls->fault(calls->of, is_transmit, &outcome);
    else
        bus_print_fault(is_transmit, &outcome);
}

static void collect(struct bus *it, uint16_t queue)
{
    nic_outcome outcome;
    uint8_t status = nic_collect(&it->device, it->frame, sizeof it->frame, &outcome);
    if (status != NIC_FRAME) { /* it would block all frames sent after it */
        bus_problem(it, "can't collect a %zu-byte frame from queue %u: %s", nic_next_out(&it->device), queue,
                    nic_status_name(status));
        return;
    }
    if (++it->counts.frames_out == it->options.turn_out)
        it->frame[outcome.len - 1] ^= 1;
    if (it->sink)
        it->sink(it->sink_of, queue, it->frame, outcome.len);
}

void bus_transmit(struct bus *it, uint16_t queue)
{
    const struct bus_calls *calls = &it->options.calls;
    for (;;) {
        nic_outcome outcome;
        if (calls->stepping && !calls->stepping(calls->of, true, queue))
            return;
        uint8_t status = nic_tx_step(&it->device, queue, &outcome);
        if (status == NIC_FAULT)
            fault(it, true, &outcome);
        if (status == NIC_OUT_OF_MEMORY)
            bus_problem(it, "queue %u can't send: out of memory", queue);
        if (status != NIC_ADVANCED && status != NIC_SENT)
            return;
        it->counts.transmit_steps++;
        if (outcome.back && calls->wrote_back)
            calls->wrote_back(calls->of, queue, outcome.at);
        if (status == NIC_SENT)
            collect(it, queue);
    }
}

/* For tests: corrupts the last byte that the device wrote. */
static void turn(const struct bus_calls *calls, const nic_outcome *outcome)
{
    uint8_t *last = calls->at ? calls->at(calls->of, outcome->at + outcome->len - 1, 1) : NULL;
    if (last)
        *last ^= 1;
}

/* Reports to the user of the bus what a receive step wrote. Returns whether to run the next step. */
static bool wrote(struct bus *it, const nic_outcome *outcome)
{
    const struct bus_calls *calls = &it->options.calls;
    if (calls->wrote) {
        calls->wrote(calls->of, outcome->at, outcome->len);
        calls->wrote(calls->of, outcome->desc, BUS_SLOT);
    }
    it->counts.receive_steps++;
    if (outcome->end && ++it->counts.frames_in == it->options.turn_in)
        turn(calls, outcome);
    bool has_more = !calls->stepping || calls->stepping(calls->of, false, outcome->queue);
    if (calls->filled)
        calls->filled(calls->of, outcome->queue, outcome->desc, outcome->end);
    return has_more;
}

unsigned int bus_receive(struct bus *it)
{
    for (unsigned int written = 0;;) {
        nic_outcome outcome;
        switch (nic_rx_step(&it->device, &outcome)) {
        case NIC_WROTE:
            written++;
            if (!wrote(it, &outcome))
                return written;
            break;
        case NIC_DROPPED:
            it->counts.drops++;
            it->counts.drop_whys[outcome.why % WHYS]++;
            break;
        case NIC_FAULT: fault(it, false, &outcome); break;
        default: return written;
        }
    }
}

bool bus_is_settled(struct bus *it, uint16_t queues)
{
    nic_outcome outcomes[16];
    size_t count = 0;
    uint8_t status = nic_settle(&it->device, queues, outcomes, sizeof outcomes / sizeof *outcomes, &count);
    for (size_t i = 0; i < count; i++)
        fprintf(stderr, "bus: the device wasn't at rest: `%s` for queue or group %u: %s\n",
                nic_step_name(outcomes[i].step), outcomes[i].of, nic_status_name(outcomes[i].status));
    return status == NIC_DONE && count == 0;
}

/* ---- the wire ---- */

void bus_send_to(struct bus *it, bus_sink *sink, void *of)
{
    it->sink = sink;
    it->sink_of = of;
}

bool bus_arrive(struct bus *it, const uint8_t *frame, size_t length)
{
    nic_outcome outcome = {0}; /* stays zero if memory runs out */
    if (nic_arrive(&it->device, frame, length, &outcome) == NIC_DONE)
        return true;
    it->counts.not_let_in++;
    it->counts.arrive_whys[outcome.why % WHYS]++;
    return false;
}

unsigned int bus_room(const struct bus *it, uint16_t queue)
{
    uint32_t slots = bus_peek(it, NIC_RDLEN(queue)) / BUS_SLOT;
    if (!(bus_peek(it, NIC_RXDCTL(queue)) & NIC_RXDCTL_ENABLE) || slots == 0)
        return 0;
    return (bus_peek(it, NIC_RDT(queue)) + slots - bus_peek(it, NIC_RDH(queue))) % slots;
}

unsigned int bus_least_room(const struct bus *it)
{
    unsigned int least = UINT32_MAX;
    for (uint16_t queue = 0; queue < BUS_QUEUES; queue++)
        if (bus_peek(it, NIC_RXDCTL(queue)) & NIC_RXDCTL_ENABLE && bus_room(it, queue) < least)
            least = bus_room(it, queue);
    return least == UINT32_MAX ? 0 : least;
}

/* ---- interrupts ---- */

bool bus_message(struct bus *it, unsigned int function)
{
    const struct bus_calls *calls = &it->options.calls;
    nic_outcome outcome;
    if (nic_int_step(&it->device, (uint8_t)function, &outcome) != NIC_MESSAGE)
        return false;
    it->counts.messages[function]++;
    it->counts.vectors[function] |= 1u << outcome.vector % VECTORS;
    if (calls->message)
        calls->message(calls->of, function, outcome.vector);
    return true;
}

unsigned int bus_messages(struct bus *it)
{
    unsigned int all = 0;
    for (unsigned int function = 0; function <= it->options.functions; function++)
        while (bus_message(it, function))
            all++;
    return all;
}

bool bus_line(const struct bus *it)
{
    return (bus_peek(it, NIC_EICR) & bus_peek(it, NIC_EIMS) & OTHER_CAUSES) != 0;
}
