#include "arrivals.h"

#include "bus.h"

static uint64_t all_done(const struct bus *bus)
{
    return bus_counts(bus)->frames_in + bus_counts(bus)->drops;
}

void arrivals_begin(struct arrivals *it, const struct bus *bus)
{
    *it = (struct arrivals){.bus = bus, .done = all_done(bus)};
}

void arrivals_restore(struct arrivals *it, const struct arrivals *kept)
{
    *it = *kept;
    it->done = all_done(it->bus);
}

void arrivals_let_in(struct arrivals *it)
{
    it->waiting++;
}

static void end(struct arrivals *it, uint64_t frames)
{
    it->waiting -= frames < it->waiting ? frames : it->waiting;
    it->is_partial = false;
}

void arrivals_count(struct arrivals *it)
{
    uint64_t done = all_done(it->bus), now = done - it->done;
    it->done = done;
    if (now)
        end(it, now);
}

void arrivals_written(struct arrivals *it, uint16_t queue)
{
    uint64_t before = it->done;
    arrivals_count(it);
    it->is_partial = it->done == before;
    it->queue = queue;
}

void arrivals_fault(struct arrivals *it)
{
    arrivals_count(it);
    end(it, 1);
}

/* If a queue is disabled, the device silently drops the remaining parts of the queue's frame. */
void arrivals_check(struct arrivals *it)
{
    if (it->is_partial && !(bus_peek(it->bus, NIC_RXDCTL(it->queue)) & NIC_RXDCTL_ENABLE))
        end(it, 1);
}
