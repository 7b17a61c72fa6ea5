/* The state that nic_why examines, and the lines that it writes. */
#ifndef NICL_WHY_H
#define NICL_WHY_H

#include <stdbool.h>
#include <stddef.h>
#include <stdint.h>

#include "nic82599.h"

enum { NICL_QUEUES = 128, NICL_GROUPS = 64, NICL_RX = 0, NICL_TX = 1 };

/* State of a controller that its registers don't show. If `is_known` is false, there was no memory to find it out. */
struct nicl_inside {
    bool is_known;
    bool is_wanted[2][NICL_QUEUES]; /* requested state of a queue's side: NICL_RX or NICL_TX */
    uint16_t waiting[NICL_QUEUES];  /* number of frames waiting for a queue */
    uint16_t all_waiting, front;    /* number of waiting frames, and the queue of the first one */
    uint32_t due[NICL_GROUPS];      /* causes that a group's next messages report; group 0 is the physical function */
};

struct nicl_why {
    nic *of;
    struct nicl_inside inside;
    bool is_silent; /* suppresses all reports */
    unsigned lines; /* number of lines reported */
    /* The output: as many whole lines as fit, and the length of all lines. */
    char *text;
    size_t room, used, length;
    bool is_cut;
    char subject[16]; /* start of a line */
    char names[512];
};

/* Explain a slot's fault in lines in the style of nic_why, and one kind of drops (drops.h) in a line. */
size_t nicl_why_fault(nic *n, const nic_outcome *outcome, bool transmit, char *text, size_t size);
size_t nicl_why_drop(nic *n, unsigned kind, uint64_t count, char *text, size_t size);

/* Finds out what registers don't show, on a copy of the controller. The controller itself doesn't change. */
void nicl_look_inside(nic *of, struct nicl_inside *inside);

/* --- used by the generated reasons --- */

uint64_t nicl_why_word(const struct nicl_why *it, uint32_t address);
uint64_t nicl_why_field(const struct nicl_why *it, uint32_t address, uint32_t field);
/* Returns the names of the bits that are 1, or their numbers. Valid until the next call. */
const char *nicl_why_bits(struct nicl_why *it, const char *const names[32], uint64_t word);
/* Adds a line. Returns true. */
bool nicl_why_say(struct nicl_why *it, const char *format, ...) __attribute__((format(printf, 2, 3)));

#endif
