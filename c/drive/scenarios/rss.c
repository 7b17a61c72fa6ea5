/* Receive side scaling: flows of each hash type, and a change to the table during traffic. */
#include <stdio.h>

#include "../engine/drive.h"

enum { FLOWS = 10, MOST_FLOWS = 64, OF_EACH = 3, LATE_FLOWS = 4 };

static nicd_rss wanted, before; /* the current request, and the one before it */

static void choose(uint32_t types, unsigned shift)
{
    before = wanted;
    for (unsigned k = 0; k < sizeof wanted.key; k++)
        wanted.key[k] = (uint8_t)(k * 59 + 7 + shift);
    for (unsigned k = 0; k < sizeof wanted.table; k++)
        wanted.table[k] = (uint8_t)((k + shift) % nicd.setup.queues);
    wanted.types = types;
}

static unsigned hashed_bytes(const struct come *come)
{
    bool is_ipv6 = come->type == NIC_RSS_TCP_IPV6 || come->type == NIC_RSS_IPV6 || come->type == NIC_RSS_UDP_IPV6;
    bool has_ports = come->type != NIC_RSS_IPV4 && come->type != NIC_RSS_IPV6;
    return (is_ipv6 ? 32u : 8u) + (has_ports ? 4u : 0u);
}

static bool is_hashed(const struct come *come)
{
    return wanted.types >> come->type & 1 && come->type != NIC_RSS_NONE;
}

static uint32_t hash_of(const struct come *come, uint16_t number)
{
    static uint8_t bytes[NICD_FRAME_MOST];
    uint32_t hash = 0;
    nicd_make(come, number, bytes);
    bool is_ipv6 = bytes[12] == 0x86;
    nic_hash(wanted.key, bytes + (is_ipv6 ? 22 : 26), hashed_bytes(come), &hash);
    return hash;
}

/* Returns the queue of a frame according to the requested key and table. */
static unsigned queue_of(const struct come *come, uint16_t number)
{
    return is_hashed(come) ? wanted.table[hash_of(come, number) % sizeof wanted.table] : 0;
}

/* Describes the RETA entry that selects the frame's queue, and its current contents. */
static const char *entry_of(const struct come *come, uint16_t number)
{
    static char words[120];
    uint32_t hash = is_hashed(come) ? hash_of(come, number) : 0, entry = hash % sizeof wanted.table;
    if (!is_hashed(come))
        return "its type isn't hashed";
    snprintf(words, sizeof words, "its hash 0x%08x selects entry %u of RETA, which holds %u", (unsigned)hash,
             (unsigned)entry, (unsigned)(nicd_peek(NIC_RETA(entry / 4)) >> 8 * (entry % 4) & 0xF));
    return words;
}

const char *nicd_judge_queue(uint16_t number)
{
    unsigned queue = queue_of(&nicd.coming[number], number);
    if (nicd.frames[number].state != IS_DELIVERED || nicd.frames[number].queue == queue)
        return NULL;
    nicd_note("frame %u arrived in queue %u instead of %u: %s", number, nicd.frames[number].queue, queue,
              entry_of(&nicd.coming[number], number));
    return nicd.fault;
}

static const char *judge_queues(void)
{
    for (uint16_t k = 0; k < nicd.count; k++)
        if (nicd_judge_queue(k))
            return nicd.fault;
    return NULL;
}

/* The old table applies to frames that arrived and were written before the change, the new table to frames after it. */
static const char *judge_changed(void)
{
    nicd_rss now = wanted;
    for (uint16_t k = 0; k < nicd.count && !nicd.fault; k++) {
        const struct frame_now *frame = &nicd.frames[k];
        if (frame->state != IS_DELIVERED || frame->era != frame->written_era || frame->era == DURING)
            continue;
        wanted = frame->era == BEFORE && nicd.era == AFTER ? before : now;
        if (frame->era == AFTER)
            nicd_reach(CAME_AFTER);
        nicd_judge_queue(k);
    }
    wanted = now;
    return nicd.fault;
}

/* Declares the same number of frames for each of four queues, so that none overflows. */
static void come_to_each(uint8_t type)
{
    unsigned counts[NICD_QUEUES] = {0};
    for (uint16_t flow = 0; flow < MOST_FLOWS; flow++) {
        struct come come = {TO_OWN, type, flow, 60};
        if (counts[queue_of(&come, 0)]++ < OF_EACH)
            nicd_come(come);
    }
}

static void ask(uint32_t types)
{
    choose(types, 0);
    nicd_set_rss(&wanted);
}

void nicd_spread_otherwise(void)
{
    choose(1u << NIC_RSS_TCP_IPV4, 1);
    nicd_set_rss(&wanted);
}

void nicd_spread_flows(void)
{
    if (nicd.driver->rss)
        ask(1u << NIC_RSS_TCP_IPV4);
}

static void come_of_type(void)
{
    uint8_t type = nicd.scenario->type;
    ask(1u << type);
    if (nicd.setup.queues > 2)
        come_to_each(type);
    else
        nicd_come_flows(type, FLOWS);
}

static void come_before_and_after(void)
{
    come_of_type();
    nicd_come_flows(nicd.scenario->type, LATE_FLOWS);
    nicd.late = LATE_FLOWS;
}

static void change_table(void)
{
    nicd_hold();
    nicd_spread_otherwise();
    nicd_go_on();
}

static const char rule[] = "The low seven bits of a frame's hash select the RETA entry that selects its queue; MRQC "
                           "selects the types that are hashed";

#define TYPE(row, what, of)                                                                                            \
    ROW(row, what " are spread over the queues", rule, "Receive Side Scaling", RECEIVES | RSS,                         \
        .setup = {.queues = 2, .slots = 16}, .begin = come_of_type, .takes = true, .type = of, .end = judge_queues)

const struct scenario nicd_rss_rows[] = {
    TYPE("rss-tcp-ipv4", "TCP/IPv4 flows", NIC_RSS_TCP_IPV4),
    TYPE("rss-udp-ipv4", "UDP/IPv4 flows", NIC_RSS_UDP_IPV4),
    TYPE("rss-ipv4", "IPv4 flows without ports", NIC_RSS_IPV4),
    TYPE("rss-tcp-ipv6", "TCP/IPv6 flows", NIC_RSS_TCP_IPV6),
    TYPE("rss-udp-ipv6", "UDP/IPv6 flows", NIC_RSS_UDP_IPV6),
    TYPE("rss-ipv6", "IPv6 flows without ports", NIC_RSS_IPV6),
    ROW("rss-none", "frames that aren't hashed arrive", rule, "Receive Side Scaling", RECEIVES | RSS,
        .setup = {.queues = 2, .slots = 16}, .begin = come_of_type, .takes = true, .end = judge_queues),
    ROW("rss-four-queues", "TCP/IPv4 flows on four queues", rule, "Receive Side Scaling", RECEIVES | RSS,
        .setup = {.queues = 4}, .begin = come_of_type, .takes = true, .type = NIC_RSS_TCP_IPV4, .end = judge_queues),
    ROW("rss-four-vectors", "UDP/IPv4 flows on four queues, with interrupts",
        "The second IVAR register holds the bytes of queues 2 and 3", "Interrupt Vector Allocation",
        RECEIVES | RSS | INTERRUPTS, .setup = {.queues = 4, .interrupts = true}, .begin = come_of_type, .takes = true,
        .type = NIC_RSS_UDP_IPV4, .end = judge_queues),
    ROW("rss-changed", "a new key and table while frames arrive",
        "A write to RETA doesn't take effect at a particular frame; each frame is delivered from the queue where it "
        "arrived",
        "Redirection Table", RECEIVES | RSS, .setup = {.queues = 2, .slots = 16}, .control = change_table,
        .begin = come_before_and_after, .takes = true, .type = NIC_RSS_TCP_IPV4, .end = judge_changed),
    {0}};
