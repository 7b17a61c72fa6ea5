/* Random numbers, which depend only on the seed and are the same on every machine. */
#ifndef NICX_CHANCE_H
#define NICX_CHANCE_H

#include <stdint.h>

struct chance {
    uint64_t state;
};

static inline uint64_t chance_next(struct chance *chance)
{
    uint64_t z = chance->state += 0x9E3779B97F4A7C15u;
    z = (z ^ z >> 30) * 0xBF58476D1CE4E5B9u;
    z = (z ^ z >> 27) * 0x94D049BB133111EBu;
    return z ^ z >> 31;
}

/* Returns a random number below a bound, which must not be 0. */
static inline uint32_t chance_below(struct chance *chance, uint32_t bound)
{
    return (uint32_t)((chance_next(chance) >> 32) * bound >> 32);
}

/* Mixes another value into a hash that depends on the order of the values. */
static inline uint64_t chance_mixed(uint64_t sum, uint64_t value)
{
    sum = (sum ^ value) * 0x9E3779B97F4A7C15u;
    return sum ^ sum >> 29;
}

/* Returns the generator for one run of the search with this seed. Two runs get unrelated numbers. */
static inline struct chance chance_of(uint64_t seed, uint64_t run)
{
    struct chance chance = {seed * 0xD1342543DE82EF95u + run * 0xA24BAED4963EE407u};
    chance_next(&chance);
    return chance;
}

#endif
