/* Which frames the filter accepts. */
#include <string.h>

#include "../engine/drive.h"

static nicd_filter now;

/* Whether the filter lists an address of this kind. Frames arrive for at most one listed address of each kind. */
static bool has(const nicd_filter *filter, bool is_multicast)
{
    for (uint32_t k = 0; k < filter->count; k++)
        if ((filter->address[k][0] & 1) == is_multicast)
            return true;
    return false;
}

bool nicd_is_wanted(const nicd_filter *filter, const struct come *come)
{
    switch (come->to) {
    case TO_OWN: return true;
    case TO_BROADCAST: return filter->broadcast;
    case TO_MULTICAST: return filter->all_multicast || has(filter, true);
    case TO_SECOND: return filter->all_unicast || has(filter, false);
    default: return filter->all_unicast;
    }
}

const char *nicd_whose(const struct come *come)
{
    static const char *const whose[] = {"its own", "another", "the broadcast", "a multicast", "a second"};
    return whose[come->to];
}

static const char *judge(void)
{
    for (uint16_t k = 0; k < nicd.count; k++) {
        const struct frame_now *frame = &nicd.frames[k];
        bool came = frame->state == IS_DELIVERED;
        if (came == nicd_is_wanted(&now, &nicd.coming[k]) && (came || frame->why == NIC_WHY_FILTER))
            continue;
        nicd_note("a frame to %s address %s", nicd_whose(&nicd.coming[k]),
                  came ? "was received, but the filter doesn't accept it"
                       : "wasn't received, but the filter accepts it");
        return nicd.fault;
    }
    return NULL;
}

static void come_to_all(void)
{
    static const uint8_t order[] = {TO_OWN, TO_OTHER, TO_BROADCAST, TO_MULTICAST, TO_SECOND, TO_OWN};
    nicd_take_frames();
    for (unsigned k = 0; k < sizeof order; k++) {
        struct come come = {order[k], NIC_RSS_NONE, 0, 0};
        nicd_come(come);
    }
}

static void set(const nicd_filter *filter)
{
    now = *filter;
    nicd_set_filter(&now);
    come_to_all();
}

static void let_own_in(void)
{
    static const nicd_filter none = {0};
    set(&none);
}

static void let_broadcast_in(void)
{
    static const nicd_filter broadcast = {.broadcast = true};
    set(&broadcast);
}

static void let_all_multicast_in(void)
{
    static const nicd_filter all = {.all_multicast = true, .broadcast = true};
    set(&all);
}

static void let_all_in(void)
{
    static const nicd_filter all = {.all_unicast = true, .all_multicast = true, .broadcast = true};
    set(&all);
}

static void let_multicast_in(void)
{
    static const nicd_filter one = {.count = 1, .address = {{1, 0, 0x5E, 0, 0, 0x11}}};
    set(&one);
}

static void let_second_in(void)
{
    static const nicd_filter one = {.count = 1, .address = {{2, 0, 0, 0, 0, 0x22}}};
    set(&one);
}

/* Accepts all frames first, then only those to the port's own address. */
static void let_in_and_out(void)
{
    static const nicd_filter all = {
        .all_unicast = true, .all_multicast = true, .broadcast = true, .count = 1, .address = {{2, 0, 0, 0, 0, 0x22}}};
    nicd_set_filter(&all);
    let_own_in();
}

/* Lists two multicast addresses, then replaces them with a unicast one. */
static void let_multicast_out(void)
{
    static const nicd_filter two = {.count = 2, .address = {{1, 0, 0x5E, 0, 0, 0x11}, {1, 0, 0x5E, 0, 0, 0x22}}},
                             other = {.count = 1, .address = {{2, 0, 0, 0, 0, 0x22}}};
    if (!nicd.driver->filter(&two))
        nicd_note("filter returned false");
    set(&other);
}

/* FCTRL.BAM must be set: on the card, MPE alone doesn't accept broadcast frames. */
static void see_broadcast(const nicxo_step *step, bool is_drivers)
{
    (void)is_drivers;
    if (step->kind == STEP_ARRIVE && now.broadcast && !(nicd_peek(NIC_FCTRL) & NIC_FCTRL_BAM))
        nicd_note("broadcast frames are requested, but FCTRL.BAM is 0");
}

#define FILTER_ROW(row, what, function, words, section)                                                                \
    ROW(row, what, words, section, RECEIVES | FILTER, .ways = DROPS, .begin = function, .end = judge,                  \
        .see = see_broadcast)

const struct scenario nicd_filters[] = {
    FILTER_ROW("filter-own", "only the port's own address is accepted", let_own_in,
               "A unicast frame is accepted if a valid receive address matches", "Receive Address"),
    FILTER_ROW("filter-broadcast", "the broadcast address is accepted too", let_broadcast_in,
               "FCTRL.BAM accepts broadcast frames; on the bench, MPE does too", "Filter Control"),
    FILTER_ROW("filter-all-multicast", "all multicast frames are accepted", let_all_multicast_in,
               "FCTRL.MPE accepts all multicast frames", "Filter Control"),
    FILTER_ROW("filter-all", "all frames are accepted", let_all_in, "FCTRL.UPE, MPE and BAM accept all frames",
               "Filter Control"),
    FILTER_ROW("filter-multicast", "one multicast address is accepted", let_multicast_in,
               "A multicast frame is accepted if a receive address or MTA matches", "Multicast Table Array"),
    FILTER_ROW("filter-second", "a second unicast address is accepted", let_second_in,
               "Each of the 128 receive addresses is active if its AV is 1", "Receive Address"),
    FILTER_ROW("filter-no-longer", "all frames are accepted, then only those to the port's own address", let_in_and_out,
               "Addresses no longer requested are removed from the filters", "the adapter's filter"),
    FILTER_ROW(
        "filter-multicast-no-longer", "multicast addresses are accepted, then removed", let_multicast_out,
        "Addresses no longer requested are removed from MTA, and their receive addresses become available to others",
        "Multicast Table Array"),
    {0}};
