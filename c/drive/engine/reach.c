/* Counts, over all schedules of a process, what rows must reach. A row that passes without reaching it shows
   nothing. */
#define _DEFAULT_SOURCE
#include <inttypes.h>
#include <stdio.h>
#include <string.h>
#include <sys/mman.h>

#include "drive.h"

enum { WIDTH = NICD_QUEUES, MOST_TEXT = 120 };

/* Shared by the processes of a search. A count may be low, because concurrent increments can be lost. */
struct counts {
    uint32_t reached[REACHES][WIDTH];
    uint32_t came[WIDTH]; /* frames that the device wrote for each queue, delivered or not */
};

static struct counts *counts;

/* Whether a requirement is for the whole row or for each queue of the driver. */
enum each { ONCE, QUEUES };

/* The messages for a requirement that was reached and for one that never was. %u is the queue, %s the row's call. */
static const struct {
    const char *did, *never;
    uint8_t each;
} words[REACHES] = {
    [WAS_OPENED] = {"open returned true", "open never returned true", ONCE},
    [WAS_REOPENED] = {"open returned true after close", "open never returned true after close", ONCE},
    [WAS_CLOSED] = {"close returned", "close never returned", ONCE},
    [CALLED] = {"%s returned", "%s never returned", ONCE},
    [ACCESSED] = {"a register was accessed", "no register was accessed", ONCE},
    [WRITES_TXDCTL] = {"TXDCTL.ENABLE was written", "TXDCTL.ENABLE was never written", ONCE},
    [WRITES_RDT] = {"RDT was advanced", "RDT was never advanced", ONCE},
    [WRITES_HEAD] = {"RDH or TDH was written", "neither RDH nor TDH was written", ONCE},
    [WRITES_RXEN] = {"RXCTRL.RXEN was written", "RXCTRL.RXEN was never written", ONCE},
    [WRITES_RESET] = {"CTRL.RST was written", "CTRL.RST was never written", ONCE},
    [WRITES_RING] = {"RDBAL and RDLEN were written", "RDLEN was never written", ONCE},
    [WRITES_SRRCTL] = {"SRRCTL was written", "SRRCTL was never written", ONCE},
    [WRITES_ADDRESS] = {"RAH was written", "RAH was never written", ONCE},
    [WRITES_EITR] = {"EITR was written", "EITR was never written", ONCE},
    [WRITES_EIMS] = {"EIMS enabled a queue's cause", "EIMS never enabled a queue's cause", ONCE},
    [HASHES] = {"MRQC requested a hash", "MRQC never requested a hash", ONCE},
    [LOOKED] = {"receive found no frame", "receive never returned", ONCE},
    [TAKEN] = {"frames from queue %u were delivered", "no frame arrived in queue %u", QUEUES},
    [TAKEN_0] = {"frames from queue %u were delivered", "no frame arrived in queue %u", ONCE},
    [SENT] = {"frames were transmitted by queue %u", "no frame was transmitted by queue %u", QUEUES},
    [MESSAGES] = {"messages were sent for queue %u", "no message was sent for queue %u", QUEUES},
    [FULL] = {"the receive ring was full", "the receive ring was never full", ONCE},
    [WRAPS] = {"the receive ring wrapped", "the receive ring never wrapped", ONCE},
    [SENT_WRAPS] = {"the transmit ring wrapped", "the transmit ring never wrapped", ONCE},
    [LONG] = {"the longest frame was delivered", "the longest frame was never delivered", ONCE},
    [SENT_LONG] = {"the longest frame was transmitted", "the longest frame was never transmitted", ONCE},
    [CHAIN] = {"a frame filled several slots", "no frame filled several slots", ONCE},
    [SENT_CHAIN] = {"a frame was transmitted from several slots", "no frame was transmitted from several slots", ONCE},
    [SEND_REFUSED] = {"send failed because the ring was full", "send never failed because of a full ring", ONCE},
    [OVERLAPS] = {"two send calls overlapped", "no two send calls overlapped", ONCE},
    [DESCRIPTOR] = {"a data descriptor was fetched", "no data descriptor was fetched", ONCE},
    [WRITTEN_BACK] = {"a write-back by the device was read", "no write-back by the device was read", ONCE},
    [POLLED] = {"a frame arrived during a poll", "no frame arrived during a poll", ONCE},
    [SPURIOUS] = {"the handler was called without a cause", "the handler was never called without a cause", ONCE},
    [LATE_CALL] = {"a handler was called with a full ring", "no handler was called with a full ring", ONCE},
    [AGAIN_CALL] = {"a handler was called during a poll", "no handler was called during a poll", ONCE},
    [OWN_VECTORS] = {"the queues have separate vectors", "all queues share one vector", ONCE},
    [KEPT_OUT] = {"a frame was filtered out", "no frame was filtered out", ONCE},
    [TOO_LONG] = {"a frame was dropped because of its length", "no frame was dropped because of its length", ONCE},
    [DURING_IN] = {"frames were being received during %s", "no frame was being received during %s", ONCE},
    [DURING_OUT] = {"frames were being transmitted during %s", "no frame was being transmitted during %s", ONCE},
    [DURING_LINK] = {"the link changed during %s", "the link never changed during %s", ONCE},
    [ASLEEP_FRAME] = {"a frame arrived after suspend", "no frame arrived between suspend and resume", ONCE},
    [ASLEEP_LINK] = {"the link changed after suspend", "the link never changed between suspend and resume", ONCE},
    [LINK_DOWN] = {"the link went down", "the link never went down", ONCE},
    [LINK_UP] = {"the link went up", "the link never went up", ONCE},
    [CAME_AFTER] = {"frames arrived after the event", "no frame arrived after the event", ONCE},
    [MET_FAULT] = {"the queue had the fault", "the queue never had the fault", ONCE},
    [NO_MEMORY] = {"an allocation failed", "no allocation failed", ONCE},
    [MAIL_GIVEN] = {"the other side read the driver's messages", "the other side never read a message from the driver",
                    ONCE},
    [MAIL_TAKEN] = {"the driver read messages", "the driver never read a message", ONCE},
    [MAIL_TAKEN_1] = {"the driver read messages from virtual function 1",
                      "the driver never read a message from virtual function 1", ONCE},
    [IS_READY] = {"mailbox_ready returned true", "mailbox_ready never returned true", ONCE},
    [COUNTED] = {"stats increased between two frames", "stats never increased while frames were received or sent",
                 ONCE},
};

const char *nicd_call_name(enum call call)
{
    static const char *const names[CALLS] = {
        [CALL_OPEN] = "open",     [CALL_CLOSE] = "close",   [CALL_RESET] = "reset",
        [CALL_RESIZE] = "resize", [CALL_MTU] = "mtu",       [CALL_SUSPEND] = "suspend",
        [CALL_RESUME] = "resume", [CALL_FILTER] = "filter", [CALL_RSS] = "rss"};
    return names[call];
}

/* --- a row's entry --- */

const struct reached *nicd_reached(const struct scenario *it)
{
    if (it->reached)
        return it->reached;
    for (const struct reached *entry = nicd_reaches; entry->row; entry++)
        if (!strcmp(entry->row, it->name))
            return entry;
    return NULL;
}

bool nicd_must_reach(const struct reached *entry, enum reach reach)
{
    for (unsigned k = 0; entry && k < MOST_REACHES && entry->reaches[k]; k++)
        if (entry->reaches[k] == reach)
            return true;
    return false;
}

/* --- counting --- */

bool nicd_reach_open(void)
{
    void *memory = mmap(NULL, sizeof *counts, PROT_READ | PROT_WRITE, MAP_SHARED | MAP_ANONYMOUS, -1, 0);
    counts = memory == MAP_FAILED ? NULL : memory;
    return counts != NULL;
}

void nicd_reach_of(enum reach reach, unsigned number)
{
    if (number < WIDTH)
        counts->reached[reach][number]++;
}

void nicd_reach(enum reach reach)
{
    nicd_reach_of(reach, 0);
}

/* Counts in the current schedule, for requirements that one step can't show. */
static struct {
    uint32_t firsts[2]; /* how often slot 0 of queue 0 was written, and sent */
} now;

void nicd_reach_begin(void)
{
    memset(&now, 0, sizeof now);
}

static uint32_t longest_that_comes(void)
{
    uint32_t longest = 0;
    for (uint16_t k = 0; k < nicd.count; k++)
        if (nicd.coming[k].length > longest)
            longest = nicd.coming[k].length;
    return longest;
}

void nicd_reach_delivered(uint16_t queue, uint16_t number)
{
    nicd_reach_of(TAKEN, queue);
    nicd_reach_of(TAKEN_0, queue);
    if (nicd.coming[number].length == longest_that_comes())
        nicd_reach(LONG);
}

/* --- during a call --- */

/* Whether a frame has arrived but isn't delivered yet. A frame that the device has written counts only if at most two
   interruptions (nicd.life) followed its arrival: holding the flow is one, closing another. An older frame may have
   been lost. */
static bool is_on_way_in(void)
{
    for (uint16_t k = 0; k < nicd.count; k++)
        if (nicd.frames[k].state == WAITS ||
            (nicd.frames[k].state == IS_WRITTEN && nicd.frames[k].life + 2 >= nicd.life))
            return true;
    return false;
}

static bool is_on_way_out(void)
{
    for (unsigned queue = nicd.base; queue < nicd.base + nicd.setup.queues; queue++)
        if (nicd_peek(NIC_TXDCTL(queue)) & NIC_TXDCTL_ENABLE && nicd_peek(NIC_TDH(queue)) != nicd_peek(NIC_TDT(queue)))
            return true;
    return false;
}

static bool is_rows_call(void)
{
    return nicd.doing && nicd.reached->call == nicd.doing;
}

void nicd_reach_call(void)
{
    if (!is_rows_call())
        return;
    if (is_on_way_in())
        nicd_reach(DURING_IN);
    if (is_on_way_out())
        nicd_reach(DURING_OUT);
}

static void see_call(const nicxo_step *step)
{
    if (!is_rows_call())
        return;
    if (step->kind == STEP_ARRIVE || (step->kind == STEP_RX && step->status == NIC_WROTE))
        nicd_reach(DURING_IN);
    if (step->kind == STEP_LINK)
        nicd_reach(DURING_LINK);
}

/* --- each step --- */

static bool is_on(uint32_t address, uint32_t first)
{
    return address == first + 0x40 * ((address - first) / 0x40) && (address - first) / 0x40 < NICD_QUEUES;
}

static void see_write(uint32_t address, uint32_t word)
{
    if (is_on(address, NIC_TXDCTL(0)) && word & NIC_TXDCTL_ENABLE)
        nicd_reach(WRITES_TXDCTL);
    if (is_on(address, NIC_RDT(0)) && word)
        nicd_reach(WRITES_RDT);
    if (is_on(address, NIC_RDH(0)) || is_on(address, NIC_TDH(0)))
        nicd_reach(WRITES_HEAD);
    if (address == NIC_RXCTRL && word & NIC_RXCTRL_RXEN)
        nicd_reach(WRITES_RXEN);
    if (address == NIC_CTRL && word & (NIC_CTRL_RST | NIC_CTRL_LRST))
        nicd_reach(WRITES_RESET);
    if (is_on(address, NIC_RDLEN(0)))
        nicd_reach(WRITES_RING);
    if (is_on(address, NIC_SRRCTL(0)))
        nicd_reach(WRITES_SRRCTL);
    if (address >= NIC_RAH(0) && address <= NIC_RAH(127) && address % 8 == 4)
        nicd_reach(WRITES_ADDRESS);
    if (address >= NIC_EITR(0) && address <= NIC_EITR(15) && address % 4 == 0)
        nicd_reach(WRITES_EITR);
    if (address == NIC_EIMS && word & NIC_EICR_RTXQ)
        nicd_reach(WRITES_EIMS);
}

static void see_received(const nicxo_step *step)
{
    unsigned number = step->outcome.queue, queue = number - nicd.base;
    if (step->status != NIC_WROTE || queue >= nicd.setup.queues)
        return;
    counts->came[queue]++;
    if (!step->outcome.end)
        nicd_reach(CHAIN);
    if (!queue && !step->outcome.slot && ++now.firsts[0] > 1)
        nicd_reach(WRAPS);
    if (!queue && nicd_peek(NIC_RDH(number)) == nicd_peek(NIC_RDT(number)))
        nicd_reach(FULL);
    if (nicd.pollers[queue].busy)
        nicd_reach(POLLED);
}

static uint32_t longest_that_was_sent(unsigned queue)
{
    uint32_t longest = 0;
    for (uint32_t k = 0; k < nicd.accepted[queue] && k < MOST_OUT; k++)
        if (nicd.sent[queue][k].length > longest)
            longest = nicd.sent[queue][k].length;
    return longest;
}

static void see_sent(const nicxo_step *step)
{
    unsigned number = step->outcome.queue, queue = number - nicd.base;
    if (queue >= nicd.setup.queues || (step->status != NIC_SENT && step->status != NIC_ADVANCED))
        return;
    if (step->status == NIC_ADVANCED)
        nicd_reach(SENT_CHAIN);
    if (!queue && nicd_peek(NIC_TDH(number)) == 1 && ++now.firsts[1] > 1)
        nicd_reach(SENT_WRAPS);
    if (step->status != NIC_SENT)
        return;
    nicd_reach_of(SENT, queue);
    if (nicd.sent[queue][nicd.went[queue] % MOST_OUT].length == longest_that_was_sent(queue))
        nicd_reach(SENT_LONG);
}

/* Counts a message for each queue to which IVAR assigns its vector. The transmit byte of IVAR counts only if the row
   needn't reach TAKEN. */
static void see_message(const nicxo_step *step)
{
    unsigned port = nicd.setup.port;
    if (step->status != NIC_MESSAGE || step->outcome.group != port)
        return;
    for (unsigned queue = 0; queue < nicd.setup.queues; queue++) {
        uint32_t word = nicd_peek(port ? NIC_PVTIVAR(nicd.base / 2u) : NIC_IVAR(queue / 2)) >> 16 * (queue % 2);
        bool is_of_receive = word & 0x80 && (word & 0x3F) == step->outcome.vector;
        bool is_of_transmit = word & 0x8000 && (word >> 8 & 0x3F) == step->outcome.vector;
        if (is_of_receive || (is_of_transmit && !nicd_must_reach(nicd.reached, TAKEN)))
            nicd_reach_of(MESSAGES, queue);
    }
}

static void see_arrival(const nicxo_step *step)
{
    if (nicd.is_asleep)
        nicd_reach(ASLEEP_FRAME);
    if (step->status == NIC_DROPPED && step->outcome.why == NIC_WHY_FILTER)
        nicd_reach(KEPT_OUT);
    if (step->status == NIC_DROPPED && step->outcome.why == NIC_WHY_LONG)
        nicd_reach(TOO_LONG);
}

static void see_link(void)
{
    nicd_reach(nicd_peek(NIC_LINKS) & NIC_LINKS_LINK_UP ? LINK_UP : LINK_DOWN);
    if (nicd.is_asleep)
        nicd_reach(ASLEEP_LINK);
}

void nicd_reach_step(const nicxo_step *step, bool is_drivers)
{
    see_call(step);
    switch (step->kind) {
    case STEP_RX: see_received(step); break;
    case STEP_TX: see_sent(step); break;
    case STEP_INT: see_message(step); break;
    case STEP_ARRIVE: see_arrival(step); break;
    case STEP_LINK: see_link(); break;
    default:
        if (is_drivers && step->kind == STEP_WRITE)
            see_write(step->address, step->word);
        if (is_drivers && step->kind >= STEP_READ && step->kind <= STEP_VF_WRITE)
            nicd_reach(ACCESSED);
    }
}

/* --- results --- */

/* Whether the driver can reach this at all, with the functions that it has. */
static bool is_asked(enum reach reach)
{
    const nicd_driver *d = nicd.driver;
    bool takes = d->receive || d->threads;
    bool has_messages = d->interrupt && (nicd.scenario->setup.interrupts || !d->receive);
    switch (reach) {
    case SENT:
    case SENT_WRAPS:
    case SENT_LONG:
    case DURING_OUT: return d->send != NULL;
    case MESSAGES: return has_messages;
    case POLLED:
    case AGAIN_CALL: return d->receive != NULL; /* its own threads poll, unseen by the card */
    case TAKEN:
    case TAKEN_0: return takes;
    default: return true;
    }
}

static unsigned width_of(enum reach reach)
{
    uint16_t queues = nicd.scenario->setup.queues;
    return words[reach].each == QUEUES && queues ? queues : 1;
}

/* Whether a missing result is excused: all frames arrived at queue 0, and the adapter has no `rss` by which the card
   could direct them elsewhere. */
static bool is_excused(enum reach reach, unsigned number)
{
    if (reach == HASHES)
        return !nicd.driver->rss && !counts->reached[reach][0];
    return (reach == TAKEN || reach == MESSAGES) && number && !nicd.driver->rss && !nicd.scenario->setup.port &&
           counts->came[0] && !counts->came[number];
}

/* Fills in the queue's number or the name of the row's call. */
static const char *filled(char text[MOST_TEXT], const struct reached *entry, const char *form, unsigned number)
{
    const char *call = entry->call ? nicd_call_name(entry->call) : "a call", *at = strstr(form, "%s");
    if (at)
        snprintf(text, MOST_TEXT, "%.*s%s%s", (int)(at - form), form, call, at + 2);
    else if ((at = strstr(form, "%u")) != NULL)
        snprintf(text, MOST_TEXT, "%.*s%u%s", (int)(at - form), form, number, at + 2);
    else
        snprintf(text, MOST_TEXT, "%s", form);
    return text;
}

static void write_one(FILE *file, enum reach reach, unsigned number)
{
    char did[MOST_TEXT], never[MOST_TEXT];
    filled(did, nicd.reached, words[reach].did, number);
    filled(never, nicd.reached, words[reach].never, number);
    if (is_excused(reach, number))
        fprintf(file, "excused all frames arrived in queue 0\n");
    if (reach == TAKEN && counts->came[number] && !counts->reached[reach][number])
        snprintf(never, sizeof never, "no frame from queue %u was delivered", number);
    fprintf(file, "reached %" PRIu32 " %s | %s\n", counts->reached[reach][number], did, never);
}

void nicd_reach_tell(const struct scenario *it)
{
    const struct reached *entry = nicd_reached(it);
    char text[MOST_TEXT];
    for (unsigned k = 0; k < MOST_REACHES && entry->reaches[k]; k++) {
        bool is_each = words[entry->reaches[k]].each == QUEUES && it->setup.queues > 1;
        const char *form = words[entry->reaches[k]].did, *at = is_each ? strstr(form, "queue %u") : NULL;
        if (at)
            printf("%s%.*seach queue%s", k ? ", " : "", (int)(at - form), form, at + strlen("queue %u"));
        else
            printf("%s%s", k ? ", " : "", filled(text, entry, form, 0));
    }
}

void nicd_reach_write(FILE *file)
{
    const uint8_t *reaches = nicd.reached->reaches;
    for (unsigned k = 0; k < MOST_REACHES && reaches[k]; k++)
        for (unsigned number = 0; is_asked(reaches[k]) && number < width_of(reaches[k]); number++)
            write_one(file, reaches[k], number);
}
