/* Shared by the tests: a check that ends the program if it fails, and random numbers. */
#ifndef CHECK_H
#define CHECK_H

#include <stdint.h>
#include <stdio.h>
#include <stdlib.h>

#include "nic82599.h"

#define CHECK(fact)                                                                                                    \
    do {                                                                                                               \
        if (!(fact)) {                                                                                                 \
            fprintf(stderr, "%s:%d: check failed: %s\n", __FILE__, __LINE__, #fact);                                   \
            exit(1);                                                                                                   \
        }                                                                                                              \
    } while (0)

/* Checks that a status is the expected one. */
static inline void check_status(const char *file, int line, const char *call, uint8_t got, uint8_t want)
{
    if (got != want) {
        fprintf(stderr, "%s:%d: %s returns %s", file, line, call, nic_status_name(got));
        fprintf(stderr, ", not %s\n", nic_status_name(want));
        exit(1);
    }
}

#define ANSWERS(status, call) check_status(__FILE__, __LINE__, #call, call, status)

static uint64_t chance_state = 1;

/* Returns the next random number (xorshift64*). */
static inline uint64_t chance(void)
{
    chance_state ^= chance_state >> 12;
    chance_state ^= chance_state << 25;
    chance_state ^= chance_state >> 27;
    return chance_state * UINT64_C(2685821657736338717) >> 16;
}

/* Returns a random number below `bound`. */
static inline uint32_t below(uint32_t bound)
{
    return (uint32_t)(chance() % bound);
}

#endif
