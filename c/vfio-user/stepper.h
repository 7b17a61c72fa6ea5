/* Which device steps are due, and when they run: immediately, when requested, or delayed at random. */
#ifndef VFU_STEPPER_H
#define VFU_STEPPER_H

#include <stdbool.h>
#include <stdint.h>

#define STEPPER_QUEUES 128

/* With a seed, a reset of the card takes time too: the datasheet requires drivers to wait a millisecond. */
struct late_reset {
    uint32_t word; /* value written to CTRL; 0: no reset is pending */
    uint64_t ends; /* in nanoseconds of the caller's clock */
};

struct stepper {
    bool is_held;                                /* only requested steps run */
    bool has_seed;                               /* each step is run or postponed at random */
    uint64_t state;                              /* state of the random number generator */
    bool has_changed;                            /* since the last steps, something happened that may make steps due */
    bool is_due[STEPPER_QUEUES], any_due;        /* transmit queues with a moved tail */
    uint16_t first_due;                          /* the first queue to have its turn */
    bool is_asked[2][STEPPER_QUEUES], any_asked; /* sides of queues to enable or disable; [1] is transmit */
    struct late_reset reset;
};

void stepper_begin(struct stepper *it);
void stepper_seed(struct stepper *it, uint64_t seed);
/* Decides at random whether to run a step now. */
bool stepper_toss(struct stepper *it);
void stepper_tail(struct stepper *it, uint16_t queue);
/* Notes a request to enable or disable a side of a queue. */
void stepper_ask(struct stepper *it, bool is_transmit, uint16_t queue);

/* stepper_reset begins a reset with this value of CTRL. stepper_is_reset returns whether a reset is pending that should
   have ended by now. */
void stepper_reset(struct stepper *it, uint32_t word, uint64_t now);
bool stepper_is_reset(const struct stepper *it, uint64_t now);

#endif
