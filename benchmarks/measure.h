/* Code that the measuring programs in C share: the clock (set MEASURE_CLOCK for another one), a shuffled list of
   addresses, and the output lines. Each line has a measure's name, the number of operations, and the nanoseconds. */
#include <stdint.h>
#include <stdio.h>
#include <time.h>

/* The value written to registers. It requests no reset, and the device can still take its steps. */
#define WORD 0x5a5a0050u

#ifndef MEASURE_CLOCK
#define MEASURE_CLOCK CLOCK_MONOTONIC
#endif

static uint64_t now(void)
{
    struct timespec t;
    clock_gettime(MEASURE_CLOCK, &t);
    return (uint64_t)t.tv_sec * 1000000000u + (uint64_t)t.tv_nsec;
}

static inline void shuffle(uint32_t *order, uint32_t count)
{
    uint32_t seed = 2463534242u;
    for (uint32_t i = count - 1; i > 0; i--) {
        seed ^= seed << 13;
        seed ^= seed >> 17;
        seed ^= seed << 5;
        uint32_t j = seed % (i + 1), other = order[i];
        order[i] = order[j];
        order[j] = other;
    }
}

static volatile uint32_t sink;

#define MEASURE(name, things, rounds, work)                                                                            \
    do {                                                                                                               \
        uint64_t began = now();                                                                                        \
        for (unsigned round = 0; round < (rounds); round++) {                                                          \
            work;                                                                                                      \
        }                                                                                                              \
        printf("%s %llu %llu\n", name, (unsigned long long)(things) * (rounds), (unsigned long long)(now() - began));  \
    } while (0)
