/* Records the events that occurred in any schedule of a search, so that the search can report those that never did. */
#ifndef NICX_COVERAGE_H
#define NICX_COVERAGE_H

#include <stdbool.h>
#include <stdint.h>

#include "nic82599_explore.h"

enum {
    DELIVERED = 1, /* the frame's end was written; the bits 1 << enum nic_why say why it was dropped */
    FAULTED = 1 << 14,
    LET_IN = 1 << 15 /* the frame waited inside the device */
};

struct coverage {
    bool ran[NICX_TASKS + NICX_HANDLERS]; /* whether a task got past its first wait, or a handler started */
    uint16_t frames[NICX_FRAMES];
    bool links[NICX_FRAMES]; /* a link change that had an effect */
    bool is_on[2][128];      /* each queue's receive and transmit side */
    bool acted[2][128];
    uint16_t messages[64]; /* for each group, a bit for each vector */
    uint64_t faults;       /* faults that the scenario allows */
    char fault[100];       /* the first of these faults */
};

struct step;

/* Called when a schedule starts: no frame has entered the device yet. */
void nicxi_cover_begin(void);
/* What is known about the frames inside the device, as a part of a checkpoint. */
struct checkpoint;
void nicxi_cover_part(struct checkpoint *it);
/* Returns the frame that a receive step is about, whether or not the step took it; -1 if no frame was waiting. Call
   this after nicxi_cover_step. */
int nicxi_frame_in_hand(bool is_taken);
/* Notes that a task or handler ended, or continued from a point that isn't a wait. */
void nicxi_cover_thread(uint16_t number);
/* Notes a device step or a link change. */
void nicxi_cover_step(const struct step *step);
/* Notes that the device was reset, which loses the frames that wait in it. */
void nicxi_cover_reset(void);
/* Notes which queues are on after the bring-up. */
void nicxi_cover_bring_up(void);
/* Adds another process's coverage to `all`. */
void nicxi_cover_more(struct coverage *all, const struct coverage *one);

/* Passes a line to `tell` for each item that the scenario names but that never ran or occurred. Returns the number of
   lines. */
typedef void nicxi_teller(void *argument, const char *line);
uint32_t nicxi_never(const struct coverage *coverage, nicxi_teller *tell, void *argument);

/* --- the number of distinct schedules: exact up to EXACT, an estimate above that --- */

enum { EXACT = 65536, RANKS = 4096 };

/* Shared by processes; starts as all zeros. */
struct distinct {
    volatile uint64_t table[2 * EXACT];
    volatile uint32_t count;
    volatile uint8_t ranks[RANKS];
};

/* Count a schedule, given by its hash or by its actors; return how many distinct schedules were counted. */
void nicxi_count_bits(struct distinct *distinct, uint64_t bits);
void nicxi_count_schedule(struct distinct *distinct, const uint16_t *schedule, uint32_t points);
uint64_t nicxi_distinct(const struct distinct *distinct, bool *is_exact);

#endif
