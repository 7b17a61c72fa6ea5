/* Requests that virtual functions sent to the PF's driver through their mailboxes, and its answers, as they were
   written. */
#ifndef BUS_MAILBOX_H
#define BUS_MAILBOX_H

#include <stdint.h>

struct bus;

/* How often a request was sent, acknowledged and refused since bus_open. A request's number is bits 15:0 of its first
   word. */
struct mailbox_counts {
    uint64_t asked, acknowledged, refused;
};
struct mailbox_counts mailbox_counts(const struct bus *it, unsigned int request);

/* Returns how often the PF's driver sent a message that answers no request. */
uint64_t mailbox_own_messages(const struct bus *it);

/* Prints a line for each kind of request, with the words of the first request and of its answer. */
void mailbox_tell(const struct bus *it);

#endif
