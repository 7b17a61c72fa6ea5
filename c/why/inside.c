/* Finds out what registers don't show: which frames are waiting and for which queues, for which sides of queues an
   enable was requested, and which causes no message has reported. A copy of the controller reveals all of it by its
   behavior. */
#include <string.h>

#include "../library/look.h"
#include "../library/proved.h"
#include "why.h"

/* Returns the causes that the next messages of a group report. Puts all causes into the group's auto-clear
   register, so that the messages clear the causes that they report. */
static uint32_t due(nic *copy, uint8_t group)
{
    uint32_t causes = group ? (uint32_t)NIC_PVTEICR(group - 1) : (uint32_t)NIC_EICR;
    uint32_t before = nicl_word_at(copy, causes);
    nic_outcome outcome;
    if (!before)
        return 0;
    nicl_write32(copy, group ? (uint32_t)NIC_PVTEIAC(group - 1) : (uint32_t)NIC_EIAC, UINT32_MAX);
    while (nicl_int_step(copy, group, &outcome) == NIC_MESSAGE)
        ;
    return before & ~nicl_word_at(copy, causes);
}

/* Finds out the requested state of each side of a queue. Returns whether a receive side was disabled, which may also
   drop a frame. */
static bool look_at_sides(nic *copy, struct nicl_inside *inside)
{
    bool went_off = false;
    nic_outcome outcome;
    for (uint16_t queue = 0; queue < NICL_QUEUES; queue++) {
        for (int side = NICL_RX; side <= NICL_TX; side++) {
            uint32_t control = side == NICL_TX ? (uint32_t)NIC_TXDCTL(queue) : (uint32_t)NIC_RXDCTL(queue);
            bool is_on = nicl_word_at(copy, control) & NIC_RXDCTL_ENABLE;
            bool is_switched = nicl_queue_step(copy, side == NICL_TX, queue, &outcome) == NIC_DONE;
            inside->is_wanted[side][queue] = is_on != is_switched;
            went_off |= side == NICL_RX && is_on && is_switched;
        }
    }
    return went_off;
}

static void arm(nic *copy, uint16_t queue)
{
    nic_outcome outcome;
    nicl_write32(copy, NIC_RXDCTL(queue), NIC_RXDCTL_ENABLE);
    nicl_queue_step(copy, false, queue, &outcome);
    nicl_write32(copy, NIC_RDT(queue), UINT16_MAX);
}

/* Finds out for which queues frames are waiting. With a tail outside its ring, each receive step ends in a fault that
   names the queue, disables it and drops the frame. */
static void look_at_frames(nic *copy, struct nicl_inside *inside)
{
    nic_outcome outcome;
    for (uint16_t queue = 0; queue < NICL_QUEUES; queue++)
        arm(copy, queue);
    while (nicl_rx_step(copy, &outcome) == NIC_FAULT) {
        if (!inside->all_waiting++)
            inside->front = outcome.queue;
        inside->waiting[outcome.queue]++;
        arm(copy, outcome.queue);
    }
}

static bool look(nic *copy, const nic_kept *kept, struct nicl_inside *inside)
{
    if (nicl_restore(copy, kept) != NIC_DONE)
        return false;
    nicl_write32(copy, NIC_CTRL, 0); /* otherwise the device runs no step */
    for (uint8_t group = 0; group < NICL_GROUPS; group++)
        inside->due[group] = due(copy, group);
    if (look_at_sides(copy, inside)) {
        if (nicl_restore(copy, kept) != NIC_DONE)
            return false;
        nicl_write32(copy, NIC_CTRL, 0);
    }
    look_at_frames(copy, inside);
    return true;
}

void nicl_look_inside(nic *of, struct nicl_inside *inside)
{
    nic copy = {NULL};
    nic_kept kept = {NULL};
    memset(inside, 0, sizeof *inside);
    if (nicl_new(0, 1, 1, &copy.device) != NIC_DONE)
        return;
    if (nicl_snapshot_without_memory(of, &kept) == NIC_DONE) {
        inside->is_known = look(&copy, &kept, inside);
        nicl_free_snapshot(kept);
    }
    nicl_free(copy);
    if (!inside->is_known)
        memset(inside, 0, sizeof *inside);
}
