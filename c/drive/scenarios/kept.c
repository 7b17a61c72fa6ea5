/* Settings that must last. A row applies a setting, then an event happens, and the frames that arrive afterwards show
   whether the setting still applies. Other rows change a filter during traffic. Two tables, of settings and of events,
   define the rows. */
#include <stdio.h>
#include <string.h>

#include "../engine/drive.h"

enum {
    SETTINGS = 6,
    EVENTS = 5,
    CHANGES = 3,
    MOST_ROWS = SETTINGS * EVENTS + CHANGES,
    LONG_FRAME = 4096,
    MOST_TITLE = 64
};

struct setting {
    const char *name, *what;
    uint32_t needs;
    nicd_setup setup;
    void (*set)(void);
    void (*come)(void);                    /* declares the frames that arrive after the event */
    const char *(*judge)(uint16_t number); /* judges one of these frames: null, or an error */
    void (*after)(void);                   /* more to do after the event, or null */
    uint8_t reach;
};

struct event {
    const char *name, *what, *source;
    uint32_t needs;
    uint8_t call;
    void (*happen)(void);
    uint8_t reaches[2];
};

/* The current row. */
static const struct setting *setting;
static const struct event *event;
static uint16_t first; /* number of the first frame after the event */

/* --- settings of the filter --- */

static const nicd_filter own_alone = {0};
static const nicd_filter listed = {.count = 2, .address = {{1, 0, 0x5E, 0, 0, 0x11}, {2, 0, 0, 0, 0, 0x22}}};
static const nicd_filter promiscuous = {.all_unicast = true, .all_multicast = true, .broadcast = true};
static const nicd_filter *filter;

static void set_filter(const nicd_filter *wanted)
{
    filter = wanted;
    nicd_set_filter(wanted);
}

static void let_own_in(void)
{
    nicd_set_filter(&promiscuous);
    set_filter(&own_alone);
}

static void let_list_in(void)
{
    set_filter(&listed);
}

static void let_all_in(void)
{
    set_filter(&promiscuous);
}

static void come_to_each(void)
{
    static const uint8_t order[] = {TO_OTHER, TO_MULTICAST, TO_BROADCAST, TO_SECOND, TO_OWN};
    for (unsigned k = 0; k < sizeof order; k++) {
        struct come come = {order[k], NIC_RSS_NONE, 0, 0};
        nicd_come(come);
    }
}

static const char *judge_filter(uint16_t number)
{
    bool came = nicd.frames[number].state == IS_DELIVERED;
    if (came == nicd_is_wanted(filter, &nicd.coming[number]))
        return NULL;
    nicd_note("frame %u to %s address %s", number, nicd_whose(&nicd.coming[number]),
              came ? "was received, but the filter doesn't accept it" : "wasn't received, but the filter accepts it");
    return nicd.fault;
}

/* --- the longest frame --- */

static void let_long_in(void)
{
    nicd_mtu(LONG_FRAME);
}

static void come_long(void)
{
    nicd_come_plain(1, 60);
    nicd_come_plain(1, LONG_FRAME);
    nicd_come_plain(1, LONG_FRAME + 1000);
    nicd_come_plain(1, LONG_FRAME);
}

static void send_long(void)
{
    if (!nicd.driver->send)
        return;
    nicd_send_surely(0, LONG_FRAME);
    nicd_wait_until_out(0);
}

static const char *judge_length(uint16_t number)
{
    bool came = nicd.frames[number].state == IS_DELIVERED;
    if (came == (nicd.coming[number].length <= LONG_FRAME))
        return NULL;
    nicd_note("frame %u, %u bytes long, %s, but the frame limit is %u bytes", number,
              (unsigned)nicd.coming[number].length, came ? "was received" : "wasn't received", LONG_FRAME);
    return nicd.fault;
}

/* --- the queues that flows are spread over, each with its vector --- */

static void spread_otherwise(void)
{
    nicd_spread_flows();
    nicd_spread_otherwise();
}

static void come_by_flows(void)
{
    nicd_come_flows(NIC_RSS_TCP_IPV4, 6);
}

static const char *judge_queue(uint16_t number)
{
    return nicd.frames[number].state == IS_DELIVERED ? nicd_judge_queue(number) : NULL;
}

/* --- the length of the rings --- */

static void make_rings_longer(void)
{
    nicd_resize(16);
}

static void come_over_ring(void)
{
    nicd_come_plain(20, 60);
}

static const char *judge_ring(uint16_t number)
{
    uint32_t length = nicd_peek(NIC_RDLEN(nicd.base));
    if (length == NIC_DESC_BYTES * (uint32_t)nicd.setup.slots)
        return NULL;
    nicd_note("frame %u was received by a %u-byte ring, but %u slots were requested", number, (unsigned)length,
              nicd.setup.slots);
    return nicd.fault;
}

static const struct setting settings[SETTINGS] = {
    {"filter",
     "the filter again accepts only the port's own address",
     FILTER,
     {0},
     let_own_in,
     come_to_each,
     judge_filter,
     NULL,
     KEPT_OUT},
    {"list",
     "a multicast and a second address are accepted",
     FILTER,
     {0},
     let_list_in,
     come_to_each,
     judge_filter,
     NULL,
     KEPT_OUT},
    {"promiscuous", "all frames are accepted", FILTER, {0}, let_all_in, come_to_each, judge_filter, NULL, NO_REACH},
    {"mtu", "a larger MTU is set", MTU, {0}, let_long_in, come_long, judge_length, send_long, TOO_LONG},
    {"rss",
     "a new hash key and table are set",
     RSS,
     {.queues = 2, .interrupts = true},
     spread_otherwise,
     come_by_flows,
     judge_queue,
     NULL,
     MESSAGES},
    {"rings", "longer rings are set up", RESIZE, {0}, make_rings_longer, come_over_ring, judge_ring, NULL, WRAPS},
};

/* --- events --- */

static void reset_it(void)
{
    nicd_hold();
    nicd_reset();
}

static void suspend_it(void)
{
    nicd_hold();
    nicd_suspend();
    nicd_resume();
}

static void resize_it(void)
{
    nicd_hold();
    nicd_resize(16);
}

static void change_length(void)
{
    nicd_hold();
    nicd_mtu(LONG_FRAME);
}

static bool is_link_back(void *unused)
{
    (void)unused;
    return nicd.links >= 2;
}

static void wait_for_link(void)
{
    nicx_wait_until(is_link_back, NULL);
    nicd_hold();
}

static const struct event events[EVENTS] = {
    {"reset", "a reset", "Software Reset", RESET, CALL_RESET, reset_it, {DURING_IN}},
    {"suspend", "suspend and resume", "the adapter's suspend", SUSPEND, CALL_SUSPEND, suspend_it, {DURING_IN}},
    {"resize", "new rings", "the adapter's resize", RESIZE, CALL_RESIZE, resize_it, {DURING_IN}},
    {"mtu", "a new MTU", "the adapter's mtu", MTU, CALL_MTU, change_length, {DURING_IN}},
    {"link", "the link goes down and up", "Link Status", 0, NO_CALL, wait_for_link, {LINK_DOWN, LINK_UP}},
};

/* --- a row: the setting precedes all traffic, the event happens during it --- */

static void run_event(void)
{
    event->happen();
    nicd_go_on();
    if (setting->after)
        setting->after();
}

static void name_late(void)
{
    first = nicd.count;
    setting->come();
    nicd.late = (uint16_t)(nicd.count - first);
}

static void begin_pair(void)
{
    setting->set();
    nicd_control(run_event);
    nicd_take_frames();
    if (nicd.driver->send)
        nicd_send_frames(0, 2, 60);
    nicd_come_plain(2, 60);
    for (unsigned k = 0; k < 2 && !event->call; k++)
        nicx_link_change(k);
    name_late();
}

static const char *judge_pair(void)
{
    for (uint16_t k = first; k < nicd.count; k++) {
        if (nicd.frames[k].state == ON_ITS_WAY)
            continue;
        nicd_reach(CAME_AFTER);
        if (!setting->judge(k))
            continue;
        size_t used = strlen(nicd.words);
        snprintf(nicd.words + used, sizeof nicd.words - used, " (%s; then %s)", setting->what, event->what);
        return nicd.words;
    }
    return NULL;
}

/* --- filters that change during traffic: the old one judges earlier frames, the new one later frames --- */

static const struct change {
    const char *name, *what;
    const nicd_filter *old, *wanted;
} changes[CHANGES] = {
    {"filter-during-traffic", "the filter is narrowed to the port's own address while frames arrive", &promiscuous,
     &own_alone},
    {"list-during-traffic", "new addresses are accepted while frames arrive", &own_alone, &listed},
    {"promiscuous-during-traffic", "the filter starts to accept all frames while frames arrive", &own_alone,
     &promiscuous},
};

static const struct change *change;

static void change_filter(void)
{
    nicd_hold();
    nicd_set_filter(change->wanted);
    nicd_go_on();
}

static void begin_change(void)
{
    nicd_set_filter(change->old);
    nicd_control(change_filter);
    nicd_take_frames();
    if (nicd.driver->send)
        nicd_send_frames(0, 2, 60);
    come_to_each();
    first = nicd.count;
    come_to_each();
    nicd.late = (uint16_t)(nicd.count - first);
}

static const char *judge_change(void)
{
    for (uint16_t k = 0; k < nicd.count; k++) {
        const struct frame_now *frame = &nicd.frames[k];
        bool was = nicd_is_wanted(change->old, &nicd.coming[k]), is = nicd_is_wanted(change->wanted, &nicd.coming[k]);
        if (frame->state == ON_ITS_WAY || (frame->era == DURING && was != is))
            continue;
        filter = frame->era == BEFORE ? change->old : change->wanted;
        if (frame->era == AFTER)
            nicd_reach(CAME_AFTER);
        if (judge_filter(k))
            return nicd.fault;
    }
    return NULL;
}

/* --- building the rows --- */

struct scenario nicd_kept[MOST_ROWS + 1];

static struct {
    char name[MOST_TITLE], title[3 * MOST_TITLE];
    struct reached reached;
    uint8_t setting, event, change;
} rows[MOST_ROWS];

static void begin_row_of_pair(void)
{
    setting = &settings[rows[nicd.scenario - nicd_kept].setting];
    event = &events[rows[nicd.scenario - nicd_kept].event];
    begin_pair();
}

static void begin_row_of_change(void)
{
    change = &changes[rows[nicd.scenario - nicd_kept].change];
    begin_change();
}

static void add_reach(struct reached *reached, enum reach reach)
{
    unsigned k = 0;
    while (reached->reaches[k])
        k++;
    reached->reaches[k] = (uint8_t)reach;
}

static void make_pair(unsigned row, unsigned of_setting, unsigned of_event)
{
    const struct setting *s = &settings[of_setting];
    const struct event *e = &events[of_event];
    struct scenario *it = &nicd_kept[row];
    rows[row].setting = (uint8_t)of_setting;
    rows[row].event = (uint8_t)of_event;
    snprintf(rows[row].name, MOST_TITLE, "%s-then-%s", s->name, e->name);
    snprintf(rows[row].title, sizeof rows[row].title, "%s; then %s", s->what, e->what);
    it->name = rows[row].name;
    it->title = rows[row].title;
    it->rule = "A setting holds until it is changed: a driver that sets its device up again restores it";
    it->source = e->source;
    it->needs = RECEIVES | s->needs | e->needs;
    it->ways = LOSSY | DROPS;
    it->setup = s->setup;
    it->setup.interrupts |= !e->call; /* the link's cause needs a handler */
    it->begin = begin_row_of_pair;
    it->end = judge_pair;
    it->reached = &rows[row].reached;
    rows[row].reached.row = it->name;
    rows[row].reached.call = e->call;
    add_reach(&rows[row].reached, TAKEN);
    add_reach(&rows[row].reached, CAME_AFTER);
    for (unsigned k = 0; k < 2 && e->reaches[k]; k++)
        add_reach(&rows[row].reached, e->reaches[k]);
    if (s->reach)
        add_reach(&rows[row].reached, s->reach);
}

static void make_change(unsigned row, unsigned number)
{
    static const uint8_t reaches[] = {TAKEN, SENT, CAME_AFTER, DURING_IN, KEPT_OUT};
    struct scenario *it = &nicd_kept[row];
    rows[row].change = (uint8_t)number;
    it->name = changes[number].name;
    it->title = changes[number].what;
    it->rule = "A filter change loses no frame that both the old and the new filter accept";
    it->source = "the adapter's filter";
    it->needs = RECEIVES | FILTER;
    it->ways = DROPS;
    it->setup.interrupts = true;
    it->begin = begin_row_of_change;
    it->end = judge_change;
    it->reached = &rows[row].reached;
    rows[row].reached.row = it->name;
    rows[row].reached.call = CALL_FILTER;
    for (unsigned k = 0; k < sizeof reaches; k++)
        add_reach(&rows[row].reached, reaches[k]);
}

void nicd_make_rows(void)
{
    unsigned row = 0;
    for (unsigned s = 0; s < SETTINGS; s++)
        for (unsigned e = 0; e < EVENTS; e++)
            if (!events[e].needs || settings[s].needs != events[e].needs)
                make_pair(row++, s, e);
    for (unsigned k = 0; k < CHANGES; k++)
        make_change(row++, k);
}
