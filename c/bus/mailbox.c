#include "mailbox.h"

#include <inttypes.h>

#include "inside.h"

#define ASKS 0x1u  /* written to VFMAILBOX: a request is ready */
#define TELLS 0x1u /* written to PFMAILBOX: a message is ready */
#define ACKNOWLEDGED 0x80000000u
#define REFUSED 0x40000000u
#define NUMBER 0x0000FFFFu

static const char *const names[MAILBOX_REQUESTS] = {
    NULL,        "RESET",          "SET_MAC_ADDR", "SET_MULTICAST", "SET_VLAN",    "SET_LPE",           "SET_MACVLAN",
    NULL,        "API_NEGOTIATE",  "GET_QUEUES",   "GET_RETA",      "GET_RSS_KEY", "UPDATE_XCAST_MODE", "IPSEC_ADD",
    "IPSEC_DEL", "GET_LINK_STATE", "others",
};

static struct message message_of(const struct bus *it, unsigned int function)
{
    struct message message;
    for (unsigned int i = 0; i < MAILBOX_SHOWN; i++)
        message.words[i] = bus_peek(it, NIC_PFMBMEM(16 * (function - 1) + i));
    return message;
}

static void asked(struct bus *it, unsigned int function)
{
    struct message message = message_of(it, function);
    uint32_t number = message.words[0] & NUMBER;
    int which = number && number < MAILBOX_REQUESTS - 1 ? (int)number : MAILBOX_REQUESTS - 1;
    struct request *request = &it->mailboxes.requests[which];
    it->mailboxes.pending[function] = which;
    if (request->counts.asked++ == 0)
        request->asked = message;
}

static void notified(struct bus *it, unsigned int function)
{
    struct message message = message_of(it, function);
    struct request *request = &it->mailboxes.requests[it->mailboxes.pending[function]];
    if (!it->mailboxes.pending[function]) {
        it->mailboxes.own_messages++;
        return;
    }
    it->mailboxes.pending[function] = 0;
    if (request->counts.acknowledged + request->counts.refused == 0)
        request->answered = message;
    request->counts.acknowledged += (message.words[0] & ACKNOWLEDGED) != 0;
    request->counts.refused += (message.words[0] & REFUSED) != 0;
}

void mailbox_written(struct bus *it, unsigned int function, uint32_t offset, uint32_t word)
{
    if (function != BUS_PHYSICAL && offset == NIC_VFMAILBOX && word & ASKS && !bus_is_absent(it, function))
        asked(it, function);
    if (function == BUS_PHYSICAL && offset >= NIC_PFMAILBOX(0) && offset < NIC_PFMAILBOX(BUS_FUNCTIONS - 1) &&
        word & TELLS)
        notified(it, (offset - NIC_PFMAILBOX(0)) / 4 + 1);
}

struct mailbox_counts mailbox_counts(const struct bus *it, unsigned int request)
{
    return it->mailboxes.requests[request && request < MAILBOX_REQUESTS - 1 ? request : MAILBOX_REQUESTS - 1].counts;
}

uint64_t mailbox_own_messages(const struct bus *it)
{
    return it->mailboxes.own_messages;
}

static void tell_message(const struct message *message)
{
    for (unsigned int i = 0; i < MAILBOX_SHOWN; i++)
        printf(" %08" PRIx32, message->words[i]);
}

void mailbox_tell(const struct bus *it)
{
    printf("  %-18s %5s %12s %7s  first request; its answer\n", "request", "count", "acknowledged", "refused");
    for (unsigned int i = 0; i < MAILBOX_REQUESTS; i++) {
        const struct request *request = &it->mailboxes.requests[i];
        const struct mailbox_counts *counts = &request->counts;
        if (!counts->asked)
            continue;
        if (names[i])
            printf("  %-18s", names[i]);
        else
            printf("  %-18u", i);
        printf(" %5" PRIu64 " %12" PRIu64 " %7" PRIu64 " ", counts->asked, counts->acknowledged, counts->refused);
        tell_message(&request->asked);
        printf(" ;");
        tell_message(&request->answered);
        printf("\n");
    }
    printf("  messages that the PF's driver initiated: %" PRIu64 "\n", it->mailboxes.own_messages);
}
