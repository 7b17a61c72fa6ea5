/* Judges whether the driver delivered the frames that arrived, and whether the frames sent are the ones that it
   accepted. */
#include <stdarg.h>
#include <stdio.h>
#include <string.h>

#include "drive.h"

static uint8_t whole[NICD_FRAME_MOST], out[NICD_FRAME_MOST + 64];

static void put_words(const char *form, va_list list)
{
    if (nicd.fault)
        return;
    vsnprintf(nicd.words, sizeof nicd.words, form, list);
    nicd.fault = nicd.words;
}

const char *nicd_words(const char *form, ...)
{
    static char words[WORDS];
    va_list list;
    va_start(list, form);
    vsnprintf(words, sizeof words, form, list);
    va_end(list);
    return words;
}

void nicd_note(const char *form, ...)
{
    va_list list;
    va_start(list, form);
    put_words(form, list);
    va_end(list);
}

void nicd_failed(const char *form, ...)
{
    va_list list;
    va_start(list, form);
    put_words(form, list);
    va_end(list);
    if (nicxo_thread() != NICXO_NO_THREAD)
        nicx_fail(nicd.fault);
}

static bool is_lossy(void)
{
    return (nicd.scenario->ways & LOSSY) != 0;
}

/* --- frames that were delivered --- */

static bool is_frame(uint16_t number, const uint8_t *bytes, uint32_t length)
{
    return nicd_make(&nicd.coming[number], number, whole) == length && !memcmp(whole, bytes, length);
}

/* Reports a frame that was delivered before an earlier frame of its queue. */
static void tell_too_early(uint16_t queue, uint16_t number)
{
    uint16_t next = nicd.written[queue][nicd.next[queue]];
    nicd_failed("frame %u in slot %u is delivered before frame %u in slot %u of queue %u", number,
                nicd.frames[number].slot, next, nicd.frames[next].slot, queue);
}

/* Reports what is wrong with a delivered frame that isn't the next frame of its queue. */
static void tell_strange(uint16_t queue, const uint8_t *bytes, uint32_t length)
{
    for (uint16_t k = 0; k < nicd.count; k++) {
        if (!is_frame(k, bytes, length))
            continue;
        if (nicd.frames[k].state == IS_DELIVERED)
            nicd_failed("frame %u is delivered a second time, from slot %u of queue %u", k, nicd.frames[k].slot, queue);
        else if (nicd.frames[k].state == IS_WRITTEN && nicd.frames[k].queue != nicd.base + queue)
            nicd_failed("frame %u of queue %u is delivered from queue %u", k, nicd.frames[k].queue - nicd.base, queue);
        else if (nicd.frames[k].state == IS_WRITTEN)
            tell_too_early(queue, k);
        else
            nicd_failed("frame %u is delivered, but the device never wrote it", k);
        return;
    }
    if (nicd.next[queue] == nicd.written_count[queue]) {
        nicd_failed("%u bytes are delivered from queue %u, but the device wrote no frame there", (unsigned)length,
                    queue);
        return;
    }
    uint16_t number = nicd.written[queue][nicd.next[queue]];
    uint32_t wanted = nicd_make(&nicd.coming[number], number, whole), at = 0;
    while (at < length && at < wanted && bytes[at] == whole[at])
        at++;
    if (length != wanted)
        nicd_failed("frame %u is %u bytes long but is delivered with %u: it ends in slot %u of queue %u", number,
                    (unsigned)wanted, (unsigned)length, nicd.frames[number].slot, queue);
    else
        nicd_failed("frame %u is delivered with wrong bytes starting at byte %u: it ends in slot %u of queue %u",
                    number, (unsigned)at, nicd.frames[number].slot, queue);
}

/* Skips frames that may be missing because the flow was interrupted. */
static bool take_next(uint16_t queue, const uint8_t *bytes, uint32_t length)
{
    uint16_t at = nicd.next[queue];
    while (at < nicd.written_count[queue]) {
        uint16_t number = nicd.written[queue][at];
        if (is_frame(number, bytes, length)) {
            nicd.frames[number].state = IS_DELIVERED;
            nicd.next[queue] = (uint16_t)(at + 1);
            nicd.delivered++;
            nicd_delivered_one();
            nicd_reach_delivered(queue, number);
            return true;
        }
        if (!is_lossy() || nicd.frames[number].life == nicd.life)
            return false;
        at++;
    }
    return false;
}

void nicd_deliver(uint16_t queue, const uint8_t *bytes, uint32_t length)
{
    if (queue >= nicd.setup.queues)
        nicd_failed("a frame is delivered from queue %u, but setup.queues is %u", queue, nicd.setup.queues);
    else if (!length || length > NICD_FRAME_MOST)
        nicd_failed("a %u-byte frame is delivered from queue %u", (unsigned)length, queue);
    else if (nicd.is_ended)
        nicd_failed("a frame is delivered from queue %u after close returned", queue);
    else if (!take_next(queue, bytes, length))
        tell_strange(queue, bytes, length);
}

/* --- at rest --- */

/* Returns nic_why's words about raised and enabled causes that a message has already reported, or null. */
static const char *tell_reported(void)
{
    static char why[2000];
    nic_why(nicx_device(), why, sizeof why);
    char *words = strstr(why, "already reported");
    if (words)
        words[strcspn(words, "\n")] = 0;
    return words;
}

/* The state of a queue's cause if messages announce frames: whether it is raised, and whether EIMS enables it. */
static const char *tell_cause(unsigned queue)
{
    static char words[WORDS];
    unsigned port = nicd.setup.port;
    uint32_t byte = nicd_peek(port ? NIC_PVTIVAR(nicd.base / 2u) : NIC_IVAR(queue / 2)) >> 16 * (queue % 2) & 0xFF;
    if (!nicd.setup.interrupts || !nicd.driver->interrupt)
        return "";
    if (!(byte & 0x80))
        return ": its IVAR byte isn't valid";
    uint32_t causes = nicd_peek(port ? NIC_PVTEICR(port - 1) : NIC_EICR);
    uint32_t masks = nicd_peek(port ? NIC_PVTEIMS(port - 1) : NIC_EIMS);
    bool is_raised = causes >> (byte & 0x1F) & 1, is_enabled = masks >> (byte & 0x1F) & 1;
    static const char *const states[2][2] = {{"masked in EIMS and not raised", "raised but masked in EIMS"},
                                             {"enabled in EIMS but not raised", "enabled in EIMS and raised"}};
    const char *reported = is_raised && is_enabled ? tell_reported() : NULL;
    snprintf(words, sizeof words, ": cause %u is %s%s%s%s", (unsigned)byte & 0x3F, states[is_enabled][is_raised],
             reported ? ", but " : "", reported ? reported : "", reported ? ": clear it in EICR" : "");
    return words;
}

static const char *tell_loss(uint8_t why)
{
    static const char *const words[] = {[BY_A_FAULT] = "its queue met a fault",
                                        [BY_A_QUEUE] = "its queue was disabled while the device wrote it",
                                        [BY_A_RESET] = "the device was reset"};
    return words[why];
}

/* Reports what a frame is waiting for, according to the library, in a line of at most 190 characters. */
static void tell_waiting(uint16_t number)
{
    static char why[400];
    nic_why(nicx_device(), why, sizeof why);
    for (char *at = why; *at; at++)
        if (*at == '\n')
            *at = at[1] ? ';' : 0;
    nicd_note("frame %u is still waiting inside the idle device: %.190s", number, *why ? why : "nothing receives it");
}

/* Whether a frame was dropped as the driver requested: DROP_EN is set, and the device owned no slot for the frame but
   owns one now. */
static bool is_dropped_by_choice(const struct frame_now *frame)
{
    return frame->why == NIC_WHY_NO_SLOT && nicd_peek(NIC_SRRCTL(frame->queue)) & NIC_SRRCTL_DROP_EN &&
           nicd_peek(NIC_RDH(frame->queue)) != nicd_peek(NIC_RDT(frame->queue));
}

static void judge_frame(uint16_t number)
{
    const struct frame_now *frame = &nicd.frames[number];
    bool may_be_lost = is_lossy() && (frame->life != nicd.life || !nicd.is_open);
    switch (frame->state) {
    case IS_DELIVERED:
    case ON_ITS_WAY: return;
    case IS_DROPPED:
        if (!may_be_lost && !(nicd.scenario->ways & DROPS) && !is_dropped_by_choice(frame))
            nicd_note("frame %u was dropped: %s", number, nic_why_name(frame->why));
        return;
    case IS_WRITTEN:
        if (!may_be_lost)
            nicd_note("frame %u is in slot %u of queue %u but never reached the caller%s", number, frame->slot,
                      frame->queue - nicd.base, tell_cause((unsigned)(frame->queue - nicd.base)));
        return;
    case WAITS:
        if (!may_be_lost)
            tell_waiting(number);
        return;
    default:
        if (!may_be_lost)
            nicd_note("frame %u was lost inside the device: %s", number, tell_loss(frame->why));
    }
}

/* Returns the index of the first byte in which a transmitted frame differs from an accepted one. */
static unsigned first_other(const struct sent *sent, uint64_t length)
{
    unsigned at = 0;
    nicd_make_sent(sent->number, sent->length, whole);
    while (at < length && at < sent->length && out[at] == whole[at])
        at++;
    return at;
}

/* Reports what is wrong with a transmitted frame that isn't the next frame of its queue. */
static void tell_strange_out(unsigned queue, uint16_t slot, uint64_t length, uint32_t next)
{
    const struct sent *sent = nicd.sent[queue];
    for (uint32_t k = 0; k < next; k++)
        if (length == sent[k].length && first_other(&sent[k], length) == length) {
            nicd_note("sent frame %u was transmitted a second time, from slot %u of queue %u", sent[k].number, slot,
                      queue);
            return;
        }
    if (next == nicd.accepted[queue])
        nicd_note("slot %u of queue %u transmitted a frame that send never accepted", slot, queue);
    else if (length != sent[next].length)
        nicd_note("slot %u of queue %u didn't transmit frame %u: %u bytes instead of %u", slot, queue,
                  sent[next].number, (unsigned)length, (unsigned)sent[next].length);
    else
        nicd_note("slot %u of queue %u didn't transmit frame %u: wrong bytes starting at byte %u", slot, queue,
                  sent[next].number, first_other(&sent[next], length));
}

/* Judges transmitted frame number `count` of its queue. It must be the next accepted frame, or a later one if those
   between may be lost. */
static void judge_out(const nic_outcome *outcome, uint32_t next[NICD_QUEUES], uint32_t count[NICD_QUEUES])
{
    unsigned queue = (unsigned)(outcome->queue - nicd.base);
    if (queue >= nicd.setup.queues) {
        nicd_note("a %u-byte frame was transmitted by queue %u, which isn't the driver's", (unsigned)outcome->len,
                  outcome->queue);
        return;
    }
    for (uint32_t k = next[queue]; k < nicd.accepted[queue]; k++) {
        const struct sent *sent = &nicd.sent[queue][k];
        if (outcome->len == sent->length && first_other(sent, outcome->len) == outcome->len) {
            next[queue] = k + 1;
            return;
        }
        if (!is_lossy() || sent->life == nicd.life)
            break;
    }
    tell_strange_out(queue, nicd.out_slots[queue][count[queue] % MOST_OUT].slot, outcome->len, next[queue]);
}

static void judge_sent(void)
{
    uint32_t next[NICD_QUEUES] = {0}, count[NICD_QUEUES] = {0};
    nic_outcome outcome;
    while (!nicd.fault && nic_next_out(nicx_device())) {
        if (nic_collect(nicx_device(), out, sizeof out, &outcome) != NIC_FRAME) {
            nicd_note("a transmitted frame is longer than any frame passed to send");
            return;
        }
        judge_out(&outcome, next, count);
        if (!nicd.fault)
            count[outcome.queue - nicd.base]++;
    }
    for (unsigned queue = 0; queue < nicd.setup.queues && !nicd.fault; queue++)
        for (uint32_t k = next[queue]; k < nicd.accepted[queue] && !nicd.fault; k++)
            if (!is_lossy() || (nicd.sent[queue][k].life == nicd.life && nicd.is_open))
                nicd_note("send accepted frame %u in queue %u, but it was never transmitted: TDH is %u, TDT is %u",
                          nicd.sent[queue][k].number, queue, (unsigned)nicd_peek(NIC_TDH(nicd.base + queue)),
                          (unsigned)nicd_peek(NIC_TDT(nicd.base + queue)));
}

/* Describes the oldest slot that the driver hasn't reclaimed, according to the driver's own count. */
static const char *tell_kept(unsigned queue)
{
    static char words[96];
    uint32_t kept = nicd.out[queue], went = nicd.went[queue];
    if (!kept || kept > went || kept > MOST_OUT)
        return "";
    const struct went *it = &nicd.out_slots[queue][(went - kept) % MOST_OUT];
    bool has_head = nicd_peek(NIC_TDWBAL(nicd.base + queue)) & NIC_TDWBAL_HEAD_WB_EN;
    snprintf(words, sizeof words, ": slot %u was never reclaimed, %s", it->slot,
             !it->back  ? "because it has no RS, so no DD"
             : has_head ? "although the device wrote back a later head"
                        : "although it has DD");
    return words;
}

/* Reports a task that is still waiting for the driver when the device has nothing left to do. */
static void judge_stuck(unsigned queue)
{
    if (nicd.went[queue] != nicd.accepted[queue] || !nicd.is_open)
        return;
    if (nicd.is_refused[queue])
        nicd_note("send on queue %u fails forever, although all its frames were transmitted%s", queue,
                  tell_kept(queue));
    else if (nicd.is_awaited[queue] && nicd.out[queue])
        nicd_note("reclaim reports forever that %u frame%s in queue %u ha%s been transmitted, although all have%s",
                  (unsigned)nicd.out[queue], nicd.out[queue] == 1 ? "" : "s", queue,
                  nicd.out[queue] == 1 ? "sn't" : "ven't", tell_kept(queue));
}

void nicd_judge_reclaimed(unsigned queue, uint32_t accepted)
{
    unsigned number = nicd.base + queue, head = nicd_peek(NIC_TDH(number)), tail = nicd_peek(NIC_TDT(number));
    uint32_t first = nicd.accepted[queue] - (nicd.accepted_now[queue] - nicd.went_now[queue]);
    if (nicd.went_now[queue] >= accepted)
        return;
    if (head == tail)
        nicd_failed(
            "reclaim reports all of queue %u as transmitted, but frame %u isn't: no slot holds it, because TDH and TDT "
            "are both %u",
            queue, nicd.sent[queue][first % MOST_OUT].number, head);
    else
        nicd_failed(
            "reclaim reports all of queue %u as transmitted, but frame %u in slot %u isn't: TDH is %u, TDT is %u",
            queue, nicd.sent[queue][first % MOST_OUT].number, head, head, tail);
}

const char *nicd_judge_end(void)
{
    for (uint16_t k = 0; k < nicd.count && !nicd.fault; k++)
        judge_frame(k);
    if (!nicd.fault)
        judge_sent();
    for (unsigned queue = 0; queue < nicd.setup.queues && !nicd.fault; queue++)
        judge_stuck(queue);
    return nicd.fault;
}

void nicd_judge_begin(void)
{
    memset(nicd.accepted, 0, sizeof nicd.accepted);
    memset(nicd.out, 0, sizeof nicd.out);
    memset(nicd.is_refused, 0, sizeof nicd.is_refused);
    memset(nicd.is_awaited, 0, sizeof nicd.is_awaited);
    nicd.delivered = nicd.numbers = 0;
    nicd.fault = NULL;
}
