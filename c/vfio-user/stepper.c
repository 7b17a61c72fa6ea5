#include "stepper.h"

#include <stddef.h>

#define RESET_TOSSES 4u /* coin tosses that select one of sixteen durations of a reset, up to 0.9 ms */
#define RESET_STEP 60000u

void stepper_begin(struct stepper *it)
{
    *it = (struct stepper){.has_changed = true};
}

/* Adjacent seeds result in unrelated orders. A state of 0 would remain 0. */
void stepper_seed(struct stepper *it, uint64_t seed)
{
    it->has_seed = true;
    it->state = (seed + 1) * UINT64_C(0x9E3779B97F4A7C15);
    if (it->state == 0)
        it->state = 1;
}

bool stepper_toss(struct stepper *it)
{
    it->state ^= it->state << 13;
    it->state ^= it->state >> 7;
    it->state ^= it->state << 17;
    return it->state >> 33 & 1;
}

void stepper_tail(struct stepper *it, uint16_t queue)
{
    it->is_due[queue] = it->any_due = true;
}

void stepper_ask(struct stepper *it, bool is_transmit, uint16_t queue)
{
    it->is_asked[is_transmit][queue] = it->any_asked = true;
}

void stepper_reset(struct stepper *it, uint32_t word, uint64_t now)
{
    uint64_t length = 0;
    for (unsigned int i = 0; i < RESET_TOSSES; i++)
        length = 2 * length + stepper_toss(it);
    it->reset = (struct late_reset){word, now + length * RESET_STEP};
}

bool stepper_is_reset(const struct stepper *it, uint64_t now)
{
    return it->reset.word && now >= it->reset.ends;
}
