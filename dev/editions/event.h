/* An event is one call with its arguments, made to each library. Its answer is everything that the call returns. */
#ifndef EVENT_H
#define EVENT_H

#include "calls.h"

enum {
    CARDS = 2,
    KEPT = 3,
    OWN = 2,
    OWN_BYTES = 4 * 2048,
    OUTCOMES = 64,
    ROOM = 16384,
    GIVEN = 4096,
    NOT_OPEN = CARDS
};

/* A library, with the cards that it opened and the memory that it was lent. The handle after the last card is never
   opened. */
struct side {
    struct library lib;
    nic cards[CARDS + 1];
    nic_kept kept[KEPT + 1];
    uint8_t own[CARDS][OWN][OWN_BYTES];
    const char *folder; /* folder for its recordings */
};

struct event {
    enum call call;
    uint8_t card, kept, vf, own;
    bool flag;
    uint16_t queue;
    uint32_t number, word;
    uint64_t bus;
    size_t length;
    size_t room; /* bytes of an answer that the call may write */
    uint8_t given[GIVEN];
};

/* Filled identically before each call, so the comparison includes bytes that the call leaves unchanged. */
struct answer {
    uint64_t line;
    size_t count;
    uint32_t word;
    uint8_t status;
    uint8_t is_made; /* nic_new, nic_snapshot: whether it created one */
    nic_settling where;
    nic_outcome outcome[OUTCOMES];
    uint8_t bytes[ROOM];
};

/* Makes the call to a library. */
void event_make(struct side *side, const struct event *event, struct answer *answer);

/* Stores the answer of a call that returned only this status; counts and lines are 0. */
void event_refused(const struct event *event, uint8_t status, struct answer *answer);

bool event_alike(const struct event *event, const struct answer *one, const struct answer *other);

/* Adds an answer to a digest. */
uint64_t event_digest(uint64_t digest, const struct event *event, const struct answer *answer);

void event_print(const struct event *event);
void event_print_answer(const struct event *event, const struct answer *answer);

const char *event_name(enum call call);

#endif
