/* Describes steps, in the script language where it covers them. */
#ifndef NICX_WORDS_H
#define NICX_WORDS_H

#include "engine.h"

enum { MOST_WORDS = 160 };

/* Formats an actor's step and its result: "r EICR = 0x00000020". */
const char *nicxi_words(const struct step *step, char room[MOST_WORDS]);

/* Returns the result of a device step, as a script's run prints it. */
const char *nicxi_reply(const struct step *step, char room[MOST_WORDS]);

/* Returns the variable at an address of the driver's own memory, or where that memory was allocated, or the address
   itself. */
const char *nicxi_own_name(uint64_t at, char room[MOST_WORDS]);

/* Returns ", queue 0's receive slot 1" for the ring slot at an address of packet memory, or "". */
const char *nicxi_slot_words(uint64_t bus, char room[MOST_WORDS]);

/* Returns, for an address that isn't lent, "; stop took block 2 back at driver.c:43", or "". */
const char *nicxi_taken_words(uint64_t bus, char room[MOST_WORDS]);

const char *nicxi_outcome_name(uint8_t outcome);

/* Formats why something is refused. The result stays valid until the next refusal, and may be an argument of that
   call. */
const char *nicxi_why(const char *form, ...) __attribute__((format(printf, 1, 2)));

/* Returns the plural ending for a count: "1 schedule", "2 schedules". */
static inline const char *nicxi_s(uint64_t count)
{
    return count == 1 ? "" : "s";
}

/* Copies a driver's string for use in a line of a file; anything but printable ASCII becomes a question mark. */
void nicxi_plain(const char *words, char *room, unsigned size);
/* Joins lines into one, separated by "; ". */
void nicxi_one_line(const char *words, char *room, unsigned size);

#endif
