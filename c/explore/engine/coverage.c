/* Events that occurred in some schedule of a search, and events that never occurred. */
#include "coverage.h"

#include <inttypes.h>
#include <stdio.h>
#include <string.h>

#include "checkpoint.h"
#include "engine.h"
#include "words.h"

enum { RECEIVE = 0, TRANSMIT = 1, ENABLE = 1 << 25, MOST_LINE = 300 };

/* Frames that the device accepted, in the order in which it processes them, and the index of the oldest waiting frame.
   They show which frame a step is about even if its result doesn't name one, as for a receive step. */
static struct {
    uint16_t frames[NICX_FRAMES], let_in, oldest;
} inside;

/* --- while schedules run --- */

void nicxi_cover_begin(void)
{
    inside.let_in = inside.oldest = 0;
}

void nicxi_cover_part(struct checkpoint *it)
{
    nicxi_part(it, &inside, sizeof inside);
}

int nicxi_frame_in_hand(bool is_taken)
{
    uint16_t at = (uint16_t)(inside.oldest - (is_taken && inside.oldest ? 1 : 0));
    return at < inside.let_in ? inside.frames[at] : -1;
}

void nicxi_cover_thread(uint16_t number)
{
    nicxi.coverage->ran[number] = true;
}

static void look_at_queue(int side, uint16_t queue)
{
    uint32_t word = nicxi_peek(side == RECEIVE ? NIC_RXDCTL(queue) : NIC_TXDCTL(queue));
    nicxi.coverage->is_on[side][queue] |= (word & ENABLE) != 0;
}

void nicxi_cover_bring_up(void)
{
    for (uint16_t queue = 0; queue < nicxi.scenario->queues; queue++) {
        look_at_queue(RECEIVE, queue);
        look_at_queue(TRANSMIT, queue);
    }
}

void nicxi_cover_reset(void)
{
    inside.oldest = inside.let_in;
}

static void cover_arrival(const struct step *step)
{
    uint16_t *frame = &nicxi.coverage->frames[step->of];
    if (step->status == NIC_DROPPED) {
        *frame |= (uint16_t)(1u << step->outcome.why);
        return;
    }
    *frame |= (uint16_t)LET_IN;
    inside.frames[inside.let_in++] = step->of;
}

static void cover_receive(const struct step *step)
{
    bool is_written = step->status == NIC_WROTE;
    if (is_written)
        nicxi.coverage->acted[RECEIVE][step->outcome.queue] = true;
    if ((is_written && !step->outcome.end) || inside.oldest == inside.let_in)
        return;
    uint16_t *frame = &nicxi.coverage->frames[inside.frames[inside.oldest++]];
    *frame |= (uint16_t)(is_written ? DELIVERED : step->status == NIC_DROPPED ? 1u << step->outcome.why : FAULTED);
}

static void cover_fault(const struct step *step)
{
    struct coverage *it = nicxi.coverage;
    char words[MOST_WORDS];
    if (!it->faults++)
        snprintf(it->fault, sizeof it->fault, "%.99s", nicxi_words(step, words));
}

void nicxi_cover_step(const struct step *step)
{
    struct coverage *it = nicxi.coverage;
    if (step->status == NIC_FAULT)
        cover_fault(step);
    switch (step->kind) {
    case STEP_RX: cover_receive(step); break;
    case STEP_TX: it->acted[TRANSMIT][step->of] |= step->status != NIC_FAULT; break;
    case STEP_RX_ENABLE: look_at_queue(RECEIVE, step->of); break;
    case STEP_TX_ENABLE: look_at_queue(TRANSMIT, step->of); break;
    case STEP_INT: it->messages[step->of] |= (uint16_t)(1u << step->outcome.vector % 16); break;
    case STEP_ARRIVE: cover_arrival(step); break;
    case STEP_LINK: it->links[step->of] |= step->status == NIC_DONE; break;
    default: break;
    }
}

void nicxi_cover_more(struct coverage *all, const struct coverage *one)
{
    for (uint32_t k = 0; k < sizeof all->ran; k++)
        all->ran[k] |= one->ran[k];
    for (uint32_t k = 0; k < NICX_FRAMES; k++) {
        all->frames[k] |= one->frames[k];
        all->links[k] |= one->links[k];
    }
    for (uint32_t k = 0; k < 2 * 128; k++) {
        all->is_on[k / 128][k % 128] |= one->is_on[k / 128][k % 128];
        all->acted[k / 128][k % 128] |= one->acted[k / 128][k % 128];
    }
    for (uint32_t k = 0; k < 64; k++)
        all->messages[k] |= one->messages[k];
    if (!all->faults && one->faults)
        memcpy(all->fault, one->fault, sizeof all->fault);
    all->faults += one->faults;
}

/* --- events that never occurred --- */

struct telling {
    const struct coverage *coverage;
    nicxi_teller *tell;
    void *argument;
    uint32_t count;
    char line[MOST_LINE];
};

static void report_line(struct telling *it)
{
    it->tell(it->argument, it->line);
    it->count++;
}

static const char *group_name(unsigned group, char room[16])
{
    if (group)
        snprintf(room, 16, "vf %u", group - 1);
    else
        snprintf(room, 16, "pf");
    return room;
}

/* Adds the messages that arrived but have no handler, because one of them may be the intended one. */
static void add_other_messages(struct telling *it)
{
    char room[16];
    bool any = false;
    for (unsigned of = 0; of < 64 * 16; of++) {
        size_t length = strlen(it->line);
        bool is_taken = !(it->coverage->messages[of / 16] >> of % 16 & 1);
        for (unsigned k = NICX_TASKS; k < NICX_TASKS + (unsigned)nicxi.handlers; k++)
            is_taken |= nicxi.threads[k].group == of / 16 && nicxi.threads[k].vector == of % 16;
        if (is_taken || length + 40 > MOST_LINE)
            continue;
        snprintf(it->line + length, MOST_LINE - length, "%s%s vector %u",
                 any ? ", " : "; these were sent: ", group_name(of / 16, room), of % 16);
        any = true;
    }
}

static void tell_threads(struct telling *it)
{
    char room[16];
    for (unsigned k = 0; k < NICX_TASKS + (unsigned)nicxi.handlers; k++) {
        const struct thread *thread = &nicxi.threads[k];
        if (it->coverage->ran[k] || (k >= nicxi.tasks && k < NICX_TASKS) || thread->is_made)
            continue;
        if (k < NICX_TASKS) {
            snprintf(it->line, MOST_LINE, "task %s never got past its first wait", thread->name);
        } else if (thread->is_timer) {
            snprintf(it->line, MOST_LINE, "timer %s never fired", thread->name);
        } else if (it->coverage->messages[thread->group] >> thread->vector % 16 & 1) {
            snprintf(it->line, MOST_LINE, "handler %s never started, although its message was sent", thread->name);
        } else {
            snprintf(it->line, MOST_LINE, "handler %s never started: no message %s vector %u was sent", thread->name,
                     group_name(thread->group, room), thread->vector);
            add_other_messages(it);
        }
        report_line(it);
    }
}

/* Why a frame wasn't delivered, if there is only one reason. */
static const char *why_lost(uint16_t seen)
{
    static char room[80];
    for (uint8_t why = NIC_WHY_LINK_DOWN; why <= NIC_WHY_NO_SLOT; why++)
        if (seen == 1 << why) {
            snprintf(room, sizeof room, ": dropped %s", nic_why_name(why));
            return room;
        }
    return seen == FAULTED  ? ": a fault stopped the queue each time"
           : seen == LET_IN ? ": still waiting inside the device"
                            : "";
}

static void tell_frames(struct telling *it)
{
    uint32_t lost = 0, first = 0;
    uint16_t seen = 0;
    for (uint32_t k = 0; k < nicxi.frame_count; k++) {
        uint16_t frame = it->coverage->frames[k];
        if (frame & DELIVERED || !frame)
            continue;
        if (!lost++)
            first = k;
        seen |= frame & ~LET_IN ? frame & (uint16_t)~LET_IN : frame;
    }
    if (!lost)
        return;
    if (lost == nicxi.frame_count)
        snprintf(it->line, MOST_LINE, "no frame was ever written to memory%s", why_lost(seen));
    else if (lost == 1)
        snprintf(it->line, MOST_LINE, "frame %" PRIu32 " was never written to memory%s", first, why_lost(seen));
    else
        snprintf(it->line, MOST_LINE,
                 "%" PRIu32 " of %u frames were never written to memory, the first of them frame %" PRIu32 "%s", lost,
                 nicxi.frame_count, first, why_lost(seen));
    report_line(it);
}

static void tell_links(struct telling *it)
{
    for (uint32_t k = 0; k < nicxi.link_count; k++) {
        if (it->coverage->links[k])
            continue;
        snprintf(it->line, MOST_LINE, "link change %" PRIu32 " (%s) had no effect", k, nicxi.links[k] ? "up" : "down");
        report_line(it);
    }
}

static void tell_queues(struct telling *it, int side)
{
    uint32_t count = 0, first = 0;
    const char *verb = side == RECEIVE ? "received" : "sent";
    for (uint32_t queue = 0; queue < nicxi.scenario->queues; queue++)
        if (it->coverage->is_on[side][queue] && !it->coverage->acted[side][queue] && !count++)
            first = queue;
    if (!count)
        return;
    if (count == 1)
        snprintf(it->line, MOST_LINE, "queue %" PRIu32 " was on but %s nothing", first, verb);
    else
        snprintf(it->line, MOST_LINE, "%" PRIu32 " queues were on but %s nothing, the first of them queue %" PRIu32,
                 count, verb, first);
    report_line(it);
}

/* Whether any queue received a frame. If none did, the lines about frames already say so. */
static bool has_received(const struct coverage *coverage)
{
    for (uint32_t queue = 0; queue < 128; queue++)
        if (coverage->acted[RECEIVE][queue])
            return true;
    return false;
}

uint32_t nicxi_never(const struct coverage *coverage, nicxi_teller *tell, void *argument)
{
    struct telling it = {coverage, tell, argument, 0, ""};
    tell_threads(&it);
    tell_frames(&it);
    tell_links(&it);
    if (has_received(coverage))
        tell_queues(&it, RECEIVE);
    tell_queues(&it, TRANSMIT);
    return it.count;
}
