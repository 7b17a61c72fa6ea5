/* Formats an event's reply in the words of `nicbench run`. Recordings contain them, and the explorer prints them. */
#ifndef NICL_REPLY_H
#define NICL_REPLY_H

#include "nic82599.h"
#include "text.h"

static inline void nicl_put_two(struct nicl_text *it, const char *text, uint64_t number)
{
    nicl_put(it, text);
    nicl_put_number(it, number);
}

static inline void nicl_put_fault(struct nicl_text *it, const nic_outcome *outcome)
{
    nicl_put_two(it, "fault queue ", outcome->queue);
    nicl_put(it, " ");
    nicl_put(it, nic_fault_name(outcome->why));
    if (outcome->why != NIC_FAULT_NOT_LENT)
        return;
    nicl_put(it, " ");
    nicl_put_word(it, outcome->bus, 5);
}

static inline void nicl_put_message(struct nicl_text *it, const nic_outcome *outcome)
{
    if (outcome->group)
        nicl_put_two(it, "message vf ", outcome->group - 1u);
    else
        nicl_put(it, "message pf");
    nicl_put_two(it, " vector ", outcome->vector);
}

static inline void nicl_put_slot(struct nicl_text *it, const char *text, const nic_outcome *outcome)
{
    nicl_put_two(it, text, outcome->queue);
    nicl_put_two(it, " slot ", outcome->slot);
}

static inline void nicl_put_reply(struct nicl_text *it, uint8_t status, const nic_outcome *outcome)
{
    switch (status) {
    case NIC_DROPPED:
        nicl_put(it, "dropped ");
        nicl_put(it, nic_why_name(outcome->why));
        break;
    case NIC_WROTE:
        nicl_put_slot(it, "wrote queue ", outcome);
        nicl_put(it, outcome->end ? " end" : " more");
        break;
    case NIC_ADVANCED: nicl_put_slot(it, "advanced queue ", outcome); break;
    case NIC_SENT:
        nicl_put_two(it, "sent queue ", outcome->queue);
        nicl_put_two(it, " len ", outcome->len);
        break;
    case NIC_FAULT: nicl_put_fault(it, outcome); break;
    case NIC_MESSAGE: nicl_put_message(it, outcome); break;
    default: nicl_put(it, nic_status_name(status)); break;
    }
}

/* Formats the reply with a terminating 0. Returns the length of the string. */
static inline int nicl_reply(char *room, size_t size, uint8_t status, const nic_outcome *outcome)
{
    struct nicl_text text = nicl_text_in(room, size);
    nicl_put_reply(&text, status, outcome);
    return (int)(text.at - room);
}

#endif
