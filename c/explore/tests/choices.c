/* `choices MODE words..`: values that a driver chooses, and timers. c/explore/check.py runs it. */
#include <stdio.h>
#include <stdlib.h>
#include <string.h>

#include "corpus.h"
#include "modes.h"

enum { BOUND = 6, READS = 10 };

static int timer, other_timer;
static unsigned chosen[2], fired, at_point, points;
static bool is_running, was_armed;

static const char *bring_up(void)
{
    if (is("early"))
        nicx_choose(2);
    lend_blocks(1);
    return NULL;
}

/* --- values --- */

static void choose_two(void *unused)
{
    chosen[0] = nicx_choose(5);
    nicx_read32(NIC_STATUS);
    chosen[1] = nicx_choose(3);
    nicx_check(!is("values") || chosen[0] < 2 || !chosen[1], "a value of at least 2, and one of at least 1");
    nicx_check(!is("all") || chosen[0] != 4 || chosen[1] != 2, "the last combination of values");
}

static void choose_much(void *unused)
{
    while (is("endless"))
        nicx_choose(2);
    if (is("none"))
        nicx_choose(0);
    if (is("many"))
        nicx_choose(NICX_VALUES + 1);
    if (is("hang")) {
        nicx_read32(NIC_STATUS);
        for (volatile unsigned turns = nicx_choose(2); is("hang"); turns++)
            continue;
    }
    nicx_check(nicx_choose(1) == 0, "the choice of a single value isn't 0");
    nicx_check(nicx_choose(NICX_VALUES) < NICX_VALUES, "a value beyond its bound");
}

static void read_often(void *unused)
{
    for (unsigned k = 0; k < 3; k++)
        nicx_read32(NIC_RDH(0));
}

/* --- timers --- */

static void fire(void *unused)
{
    fired++;
    at_point = points;
    nicx_check(!is("rest") || !is_running, "a timer fires before rest, while a task can continue");
    nicx_check(!is("disarm") && !is("disarmed"), "a disarmed timer fires");
    nicx_check(!is("sixth") || points < BOUND, "the sixth point");
    nicx_check(!is("first") || points > 0, "the first point");
    nicx_check(!is("bound") || points <= BOUND, "the timer fires after its last point");
    if (is("again") && fired < 3)
        nicx_arm(timer);
}

static void arm(void *unused)
{
    is_running = true;
    nicx_arm(timer);
    if (is("disarm") || is("disarmed"))
        was_armed = nicx_disarm(timer);
    for (points = 0; points < READS; points++)
        nicx_read32(NIC_RDH(points % 4));
    is_running = false;
    nicx_check(!is("bound") || fired, "the timer doesn't fire within its bound");
    nicx_check(!is("unknown") || nicx_disarm(99), "there is no such timer");
    if (is("twice"))
        nicx_arm(timer);
}

static bool has_timer(void)
{
    static const char *const modes[] = {"rest",  "bound", "disarm", "disarmed", "sixth", "first",
                                        "again", "twice", "begin",  "unknown",  "never"};
    for (size_t k = 0; k < sizeof modes / sizeof *modes; k++)
        if (is(modes[k]))
            return true;
    return false;
}

static void begin_timers(void)
{
    bool rests = is("rest") || is("again") || is("begin") || is("never") || is("disarmed");
    if (!is("begin") && !is("never"))
        nicx_task("arms", arm, NULL);
    else
        nicx_task("reads", read_often, NULL);
    timer = nicx_timer("timer", fire, NULL, rests ? (uint32_t)NICX_AT_REST : (uint32_t)BOUND);
    other_timer = nicx_timer("other", fire, NULL, BOUND);
    if (is("begin"))
        nicx_arm(timer);
}

static void begin(void)
{
    chosen[0] = chosen[1] = fired = at_point = points = 0;
    is_running = was_armed = false;
    if (has_timer()) {
        begin_timers();
        return;
    }
    if (is("inputs")) {
        unsigned frames = 1 + nicx_choose(3);
        frames_come(frames);
        chosen[0] = frames;
    }
    nicx_task("chooses",
              is("inputs")                              ? read_often
              : is("values") || is("all") || is("fine") ? choose_two
                                                        : choose_much,
              NULL);
    nicx_task("reads", read_often, NULL);
}

static const char *end(void)
{
    if (is("late"))
        nicx_choose(2);
    if ((is("disarm") && !was_armed && !fired) || (is("disarmed") && !was_armed))
        return "nicx_disarm reports that an armed timer wasn't armed";
    if (is("again") && fired != 3)
        return "a timer that is armed again doesn't fire again";
    if (is("twice") && fired != 2)
        return "a timer that was armed twice didn't fire twice";
    if ((is("begin") || is("rest")) && fired != 1)
        return "a timer that was armed once didn't fire once";
    return is("inputs") && chosen[0] == 3 ? "three frames came" : NULL;
}

MODES("fine", .name = "choices", .fifo = 4, .blocks = 4, .points = 200)
