/* Reads registers without side effects: a word, and the ring of a queue. */
#ifndef NICL_LOOK_H
#define NICL_LOOK_H

#include "nic82599.h"

struct nicl_ring {
    uint64_t base;
    uint32_t slots, head, tail;
};

static inline uint32_t nicl_word_at(nic *n, uint32_t address)
{
    uint32_t word = 0;
    (void)nic_peek32(n, address, &word);
    return word;
}

static inline struct nicl_ring nicl_ring_of(nic *n, bool transmit, uint32_t queue)
{
    struct nicl_ring ring;
    ring.base = (uint64_t)nicl_word_at(n, transmit ? NIC_TDBAH(queue) : NIC_RDBAH(queue)) << 32 |
                nicl_word_at(n, transmit ? NIC_TDBAL(queue) : NIC_RDBAL(queue));
    ring.slots = nicl_word_at(n, transmit ? NIC_TDLEN(queue) : NIC_RDLEN(queue)) / NIC_DESC_BYTES;
    ring.head = nicl_word_at(n, transmit ? NIC_TDH(queue) : NIC_RDH(queue));
    ring.tail = nicl_word_at(n, transmit ? NIC_TDT(queue) : NIC_RDT(queue));
    return ring;
}

#endif
