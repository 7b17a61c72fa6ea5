/* A step reads the descriptor at its ring's head, and the bytes that a transmit descriptor points to. This file
   records both before the step. If a device step ever reads more, c/test fails, because its replay of random calls then
   differs. */
#include "catch_up.h"

#include "../in_place/shadow.h"
#include "../in_place/table.h"
#include "look.h"
#include "proved.h"

enum { QUEUES = 128, HEAD_BYTES = 4 };

/* The slots that a call may read, starting at the head. */
enum reach { FIRST, TO_TAIL };

static void poked(void *recording, uint64_t bus, const uint8_t unit[NICL_UNIT])
{
    struct recording *it = recording;
    uint32_t name = nicl_add_data(it, unit, NICL_UNIT);
    nicl_add_poke(it, bus, name);
    nicl_add_reply(it);
    nicl_add_text(it, "done\n");
}

static bool is_in_place(const struct recording *it, const nic *n)
{
    const struct nicl_table *table = it ? nicl_table_of(n) : NULL;
    return table && table->count;
}

/* Records a descriptor and, on the transmit side, the bytes that it points to. */
static void before_slot(struct recording *it, nic *n, bool transmit, uint64_t at)
{
    uint8_t bytes[NIC_DESC_BYTES];
    nicl_shadow_poke(n, at, NIC_DESC_BYTES, poked, it);
    if (!transmit || nicl_dma_read(n, at, bytes, sizeof bytes) != NIC_DONE)
        return;
    nic_desc desc = nic_desc_of_bytes(bytes);
    nicl_shadow_poke(n, desc.first, desc.second & NIC_TXD_DTALEN, poked, it);
}

static void before_ring(struct recording *it, nic *n, bool transmit, uint32_t queue, enum reach reach)
{
    struct nicl_ring ring = nicl_ring_of(n, transmit, queue);
    if (ring.head >= ring.slots || ring.tail >= ring.slots)
        return;
    for (uint32_t slot = ring.head; slot != ring.tail; slot = slot + 1 < ring.slots ? slot + 1 : 0) {
        before_slot(it, n, transmit, ring.base + (uint64_t)NIC_DESC_BYTES * slot);
        if (reach == FIRST)
            break;
    }
}

void nicl_before_read(struct recording *it, nic *n, uint64_t bus, uint64_t length)
{
    if (is_in_place(it, n))
        nicl_shadow_poke(n, bus, length, poked, it);
}

void nicl_may_switch(struct recording *it)
{
    if (it)
        nicl_on_of(it)->is_known = false;
}

static bool is_on(nic *n, uint32_t queue)
{
    return nicl_word_at(n, NIC_RXDCTL(queue)) & NIC_RXDCTL_ENABLE;
}

static void find_queues(struct nicl_on *on, nic *n)
{
    if (on->is_known)
        return;
    *on = (struct nicl_on){true, {0, 0}};
    for (uint32_t queue = 0; queue < QUEUES; queue++)
        on->queues[queue / 64] |= (uint64_t)is_on(n, queue) << queue % 64;
}

/* The frame's queue isn't known, so this covers every enabled queue. Checking all queues takes longer than the step, so
   they are checked only if one of them may have been enabled since the last check. */
void nicl_before_receive(struct recording *it, nic *n)
{
    if (!is_in_place(it, n))
        return;
    struct nicl_on *on = nicl_on_of(it);
    find_queues(on, n);
    for (int half = 0; half < 2; half++)
        for (uint64_t left = on->queues[half]; left; left &= left - 1) {
            uint32_t bit = (uint32_t)__builtin_ctzll(left), queue = (uint32_t)half * 64 + bit;
            if (is_on(n, queue))
                before_ring(it, n, false, queue, FIRST);
            else
                on->queues[half] &= ~(UINT64_C(1) << bit);
        }
}

void nicl_before_transmit(struct recording *it, nic *n, uint32_t queue)
{
    if (is_in_place(it, n) && queue < QUEUES)
        before_ring(it, n, true, queue, FIRST);
}

/* A queue that is disabled now may be enabled before its first slot is read. */
void nicl_before_settle(struct recording *it, nic *n, uint32_t queues)
{
    nicl_may_switch(it);
    if (!is_in_place(it, n))
        return;
    for (uint32_t queue = 0; queue < QUEUES; queue++) {
        before_ring(it, n, false, queue, TO_TAIL);
        if (queue < queues)
            before_ring(it, n, true, queue, TO_TAIL);
    }
}

/* A transmit step writes back the descriptor, or the head at another address. */
static void note_write_back(nic *n, const nic_outcome *outcome)
{
    struct nicl_ring ring = nicl_ring_of(n, true, outcome->queue);
    bool is_slot = outcome->at - ring.base < (uint64_t)NIC_DESC_BYTES * ring.slots;
    nicl_shadow_note(n, outcome->at, is_slot ? NIC_DESC_BYTES : HEAD_BYTES);
}

void nicl_after_step(const struct recording *it, nic *n, const nic_outcome *outcome)
{
    if (!is_in_place(it, n))
        return;
    if (outcome->status == NIC_WROTE) {
        nicl_shadow_note(n, outcome->at, outcome->len);
        nicl_shadow_note(n, outcome->desc, NIC_DESC_BYTES);
    } else if ((outcome->status == NIC_ADVANCED || outcome->status == NIC_SENT) && outcome->back) {
        note_write_back(n, outcome);
    }
}
