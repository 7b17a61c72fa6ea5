/* The place in the driver's source at which a step was taken. */
#ifndef NICX_PLACES_H
#define NICX_PLACES_H

#include "engine.h"
#include "symbols.h"

enum { MOST_CALLS = 8, MOST_PLACE = NICXO_PLACE, MOST_TEXT = 200, MOST_DESCRIPTION = 512 };

struct place {
    struct source_line calls[MOST_CALLS]; /* calls from the innermost to the task's own function */
    unsigned count;
    const void *function; /* set if nothing else is known: the function that made the call as a tail call */
};

/* Null for a driver in C. For a driver in another language, whose calls aren't on the stack: fills in the lines of the
   current step, innermost first, and returns the number of lines; 0 if the step's place is in C. */
extern unsigned (*nicxi_ask_for_lines)(struct source_line *lines, unsigned most);
/* These work like nicxi_ask_for_lines. The first fills in the lines where a thread begins, the second the lines where
   it waits when all is at rest. */
extern unsigned (*nicxi_ask_for_begin)(const struct thread *thread, struct source_line *lines, unsigned most);
extern unsigned (*nicxi_ask_for_wait)(const struct thread *thread, struct source_line *lines, unsigned most);

/* Finds the place of a step that is being reported: call it only in a listener. The place is unknown for device steps,
   and if the program has no debug information. */
void nicxi_place(uint16_t actor, const struct step *step, struct place *place);

/* Returns "race.c:31"; with helpers "corpus.h:110 < tail.c:42"; "" if unknown. */
const char *nicxi_place_words(const struct place *place, char room[MOST_PLACE]);

/* Returns the place of the running thread: its line, and the line of the call that led there. "" if no thread runs, or
   if unknown. */
const char *nicxi_place_here(char room[MOST_PLACE]);

/* Describes a step, as in "locks driver.lock". Stores in `about` what the step locks or waits for, or "" if it does
   neither. */
void nicxi_step_words(const struct step *step, const struct place *place, char room[MOST_DESCRIPTION],
                      char about[MOST_DESCRIPTION]);

/* Returns the driver's line that makes a call, given the call's return address: "poll.c:17", or "" if unknown. */
const char *nicxi_line_of_call(const void *return_address, char room[MOST_PLACE]);

/* Returns the driver's line at which a thread waits. */
const char *nicxi_line_of_wait(const struct thread *thread, char room[MOST_PLACE]);

/* Describes a step with its place: "locks driver.lock at poll.c:17". */
void nicxi_tell_step(uint16_t actor, const struct step *step, char *room, size_t size);

#endif
