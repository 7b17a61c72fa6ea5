/* The turning point of a failing schedule. */
#ifndef NICX_TURN_H
#define NICX_TURN_H

#include "search.h"

enum { MOST_TURN = 300 };

enum turn_kind {
    TURN_UNKNOWN,
    TURN_FOUND, /* a schedule in which `other` acted at `point` was fine; after the failure's step there, none was */
    TURN_NONE,  /* no schedule was fine: the order of steps doesn't matter */
    TURN_RACE   /* like TURN_NONE, but for a data race, which any order of the steps reveals */
};

struct turn {
    uint8_t kind;
    uint16_t other;
    uint32_t point;
    uint32_t tried; /* how many schedules were tried */
};

/* Whether all schedules failed. */
static inline bool nicxi_fails_always(const struct turn *turn)
{
    return turn->kind == TURN_NONE || turn->kind == TURN_RACE;
}

void nicxi_find_turn(const struct options *options, const struct failure *failure, struct turn *turn);

/* Returns what could have avoided the failure: "task poll acted", "value 3 were chosen". */
const char *nicxi_turn_other(const struct turn *turn, char room[MOST_TURN]);

/* Returns "point of no return: ..", or "" if unknown. */
const char *nicxi_turn_words(const struct turn *turn, char room[MOST_TURN]);

#endif
