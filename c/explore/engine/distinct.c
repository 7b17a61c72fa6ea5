/* Counts distinct schedules. Each is represented by a 64-bit hash; among 65,536 schedules, two share one with a chance
   of 1 in 8,000,000,000. Above that many, the count is estimated from the longest run of zeros at the end of a hash
   (HyperLogLog), with a standard error of 1.6%. */
#include <string.h>

#include "coverage.h"

static uint64_t mixed(uint64_t z)
{
    z = (z ^ z >> 30) * 0xBF58476D1CE4E5B9u;
    z = (z ^ z >> 27) * 0x94D049BB133111EBu;
    return z ^ z >> 31;
}

static uint64_t bits_of(const uint16_t *schedule, uint32_t points)
{
    uint64_t bits = points;
    for (uint32_t k = 0; k < points; k += 4) {
        uint64_t four = 0;
        memcpy(&four, schedule + k, (points - k < 4 ? points - k : 4) * sizeof *schedule);
        bits = (bits ^ four) * 0x9E3779B97F4A7C15u;
        bits ^= bits >> 29;
    }
    bits = mixed(bits);
    return bits ? bits : 1;
}

static void note_rank(struct distinct *distinct, uint64_t bits)
{
    volatile uint8_t *most = &distinct->ranks[bits % RANKS];
    uint8_t rank = 1;
    for (uint64_t rest = bits / RANKS; !(rest & 1) && rank < 53; rest >>= 1)
        rank++;
    if (rank > *most)
        *most = rank;
}

void nicxi_count_schedule(struct distinct *distinct, const uint16_t *schedule, uint32_t points)
{
    nicxi_count_bits(distinct, bits_of(schedule, points));
}

void nicxi_count_bits(struct distinct *distinct, uint64_t bits)
{
    note_rank(distinct, bits);
    if (distinct->count > EXACT)
        return;
    for (uint64_t at = bits >> 32;; at++) {
        volatile uint64_t *place = &distinct->table[at % (2 * EXACT)];
        if (*place == bits)
            return;
        if (*place || !__sync_bool_compare_and_swap(place, 0, bits)) {
            if (*place == bits)
                return;
            continue;
        }
        __sync_fetch_and_add(&distinct->count, 1);
        return;
    }
}

uint64_t nicxi_distinct(const struct distinct *distinct, bool *is_exact)
{
    double sum = 0;
    *is_exact = distinct->count <= EXACT;
    if (*is_exact)
        return distinct->count;
    for (uint32_t k = 0; k < RANKS; k++)
        sum += 1.0 / (double)(UINT64_C(1) << distinct->ranks[k]);
    return (uint64_t)(0.7213 / (1 + 1.079 / RANKS) * RANKS * RANKS / sum);
}
