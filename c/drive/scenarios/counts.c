/* What other threads read during traffic: statistics and the link's state. */
#include "../engine/drive.h"

enum { LENGTH = 60, LOOKS = 6, LOOKERS = 2 };

/* The statistics that each reading thread got last. */
static nicd_stats last[LOOKERS];

/* --- statistics --- */

struct direction {
    const char *name;
    uint64_t frames, bytes, before; /* before: the value of `frames` that this thread saw last */
};

/* All frames of these rows have the same length. */
static void judge_direction(const struct direction *it)
{
    unsigned long long frames = it->frames, bytes = it->bytes, before = it->before;
    if (frames < before)
        nicd_failed("stats: %s_frames is %llu but was %llu before: a count never decreases", it->name, frames, before);
    if (bytes != frames * LENGTH)
        nicd_failed("stats: %s_frames is %llu and %s_bytes %llu for %u-byte frames: the two weren't read together",
                    it->name, frames, it->name, bytes, LENGTH);
}

static void look(unsigned looker)
{
    nicd_stats now = {0, 0, 0, 0}, *before = &last[looker];
    nicd_calls(BESIDE_ALL);
    nicd.driver->stats(&now);
    judge_direction(&(struct direction){"rx", now.rx_frames, now.rx_bytes, before->rx_frames});
    judge_direction(&(struct direction){"tx", now.tx_frames, now.tx_bytes, before->tx_frames});
    if (now.rx_frames + now.tx_frames && now.rx_frames + now.tx_frames > before->rx_frames + before->tx_frames)
        nicd_reach(COUNTED);
    *before = now;
}

static void look_often(void)
{
    for (unsigned k = 0; k < LOOKS; k++) {
        look(0);
        nicx_pause();
    }
}

static void look_too(void *unused)
{
    (void)unused;
    for (unsigned k = 0; k < LOOKS; k++) {
        look(1);
        nicx_pause();
    }
}

static void begin_counts(void)
{
    for (unsigned k = 0; k < LOOKERS; k++)
        last[k] = (nicd_stats){0, 0, 0, 0};
}

static void begin_two(void)
{
    begin_counts();
    nicx_task("stats", look_too, NULL);
}

/* Returns null, or what is wrong with a count at the end. */
static const char *judge_count(const char *what, uint64_t count, uint64_t wanted)
{
    if (count == wanted)
        return NULL;
    return nicd_words("stats: %s is %llu at the end, but the card counted %llu", what, (unsigned long long)count,
                      (unsigned long long)wanted);
}

static const char *judge_counts(void)
{
    nicd_stats now = {0, 0, 0, 0};
    uint64_t sent = 0;
    for (unsigned queue = 0; queue < NICD_QUEUES; queue++)
        sent += nicd.accepted[queue];
    nicd.driver->stats(&now);
    const char *fault = judge_count("rx_frames", now.rx_frames, nicd.delivered);
    fault = fault ? fault : judge_count("rx_bytes", now.rx_bytes, (uint64_t)nicd.delivered * LENGTH);
    fault = fault ? fault : judge_count("tx_frames", now.tx_frames, sent);
    return fault ? fault : judge_count("tx_bytes", now.tx_bytes, sent * LENGTH);
}

/* --- the link --- */

static void read_link(void)
{
    for (unsigned k = 0; k < LOOKS; k++) {
        nicd_calls(BESIDE_ALL);
        nicd.driver->link();
        nicx_pause();
    }
}

static const char rule[] = "A thread may read statistics at any time: the frame and byte counts that it reads match, "
                           "no count decreases, and no frame goes uncounted";

const struct scenario nicd_counts[] = {
    ROW("stats-receive", "statistics are read while frames are received", rule, "the adapter's stats", RECEIVES | STATS,
        .begin = begin_counts, .control = look_often, .takes = true, .comes = 4, .end = judge_counts),
    ROW("stats-send", "statistics are read while frames are sent", rule, "the adapter's stats", SENDS | STATS,
        .begin = begin_counts, .control = look_often, .sends = 4, .end = judge_counts),
    ROW("stats-two-threads", "two threads read statistics during traffic both ways", rule, "the adapter's stats",
        RECEIVES | SENDS | STATS, .setup = {.interrupts = true}, .begin = begin_two, .control = look_often,
        .takes = true, .sends = 3, .comes = 3, .end = judge_counts),
    {0}};

const struct scenario nicd_link_read[] = {
    ROW("link-flap", "the link goes down, up and down while another thread reads its state",
        "Several changes before the handler runs raise LSC once; LINKS shows the current state", "Link Status",
        RECEIVES | LINK | INTERRUPTS, .setup = {.interrupts = true}, .control = read_link, .takes = true, .links = 3,
        .end = nicd_judge_link),
    {0}};
