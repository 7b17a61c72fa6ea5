/* Shrinks a failing schedule: cuts and merges it as long as the result fails the same way with fewer switches, or as
   many switches and fewer points; and leaves out what the scenario names but the failure doesn't need. Each attempt
   runs in a child process, so drivers that crash can be shrunk too. */
#define _DEFAULT_SOURCE
#include "shrink.h"

#include <fcntl.h>
#include <stdio.h>
#include <stdlib.h>
#include <string.h>
#include <unistd.h>

#include "strategy.h"
#include "words.h"

enum { MOST_TRIES = 4000, BY_CHANCE = 200 };
#define MOST_SECONDS 15.0

void nicxi_be_quiet(void)
{
    int nowhere = open("/dev/null", O_WRONLY);
    if (nowhere < 0)
        return;
    dup2(nowhere, STDOUT_FILENO);
    dup2(nowhere, STDERR_FILENO);
    close(nowhere);
}

/* If an endless schedule ends in a cycle, only the points before the cycle and one round of it are reported. */
static void note_cycle(struct post *post)
{
    struct cycle cycle = {0, 0};
    if (post->result.outcome == NICX_ENDLESS && nicxi.steps)
        cycle = nicxi_find_cycle(post->schedule, nicxi.steps, post->at);
    post->cycle = cycle.length;
    if (cycle.length)
        post->result.points = cycle.from + cycle.length;
}

/* An endless schedule must stay fair. Otherwise it would shrink to a single task that keeps all other actors from
   running. */
static void follow(struct post *post, void *argument)
{
    const struct shrinking *it = argument;
    struct by_list state;
    nicxi_be_quiet();
    nicxi.omitted = it->omitted;
    nicx_chooser chooser = nicxi_by_list(&state, it->list, it->length, false);
    state.is_fair = it->best->result.outcome == NICX_ENDLESS;
    if (state.is_fair && !nicxi.steps)
        nicxi.steps = calloc((size_t)nicxi.most_points + 1, sizeof *nicxi.steps);
    nicx_run(&chooser, &post->result);
    note_cycle(post);
    post->is_found = post->result.outcome != NICX_FINE;
}

/* Compares messages without their numbers: with a different count of missing frames, the failure is still the same. */
static bool are_alike(const char *a, const char *b)
{
    for (;;) {
        while (*a >= '0' && *a <= '9')
            a++;
        while (*b >= '0' && *b <= '9')
            b++;
        if (*a != *b || !*a)
            return *a == *b;
        a++;
        b++;
    }
}

/* The last actor in an endless schedule is a matter of chance. Messages are compared in the form in which files store
   them, without unprintable characters. */
bool nicxi_is_the_same(const nicx_result *a, const nicx_result *b)
{
    char words[sizeof a->words], others[sizeof b->words];
    nicxi_plain(a->words, words, sizeof words);
    nicxi_plain(b->words, others, sizeof others);
    return a->outcome == b->outcome && (a->outcome == NICX_ENDLESS || are_alike(words, others));
}

/* --- what a smaller schedule must preserve --- */

/* When frames arrived and link changes happened, by their numbers; NEVER if they didn't. */
struct arrivals {
    uint32_t frames[NICX_FRAMES], links[NICX_FRAMES];
};

#define NEVER UINT32_MAX

static void list_arrivals(struct arrivals *arrivals, const uint16_t *schedule, uint32_t points,
                          const struct omitted *omitted)
{
    uint16_t frame = nicxi_next_kept(omitted->frames, 0, nicxi.frame_count);
    uint16_t link = nicxi_next_kept(omitted->links, 0, nicxi.link_count);
    memset(arrivals, 0xFF, sizeof *arrivals);
    for (uint32_t k = 0; k < points; k++) {
        uint8_t kind = nicxi_is_value(schedule[k]) ? BY_THREAD : nicxi.actors[schedule[k]].kind;
        if (kind == BY_WIRE && frame < nicxi.frame_count) {
            arrivals->frames[frame] = k;
            frame = nicxi_next_kept(omitted->frames, frame + 1u, nicxi.frame_count);
        } else if (kind == BY_LINK && link < nicxi.link_count) {
            arrivals->links[link] = k;
            link = nicxi_next_kept(omitted->links, link + 1u, nicxi.link_count);
        }
    }
}

/* Frames must arrive and link changes happen in the same order as before: an earlier link-down drops a frame, which is
   a different failure. */
static bool keeps_arrivals(const struct shrinking *it, uint32_t points)
{
    static struct arrivals old, new;
    if (!nicxi.link_count || !nicxi.frame_count)
        return true;
    list_arrivals(&old, it->best->schedule, it->best->result.points, &it->best->omitted);
    list_arrivals(&new, it->post->schedule, points, &it->omitted);
    for (uint16_t link = 0; link < nicxi.link_count; link++)
        for (uint16_t frame = 0; frame < nicxi.frame_count; frame++)
            if (!it->omitted.links[link] && !it->omitted.frames[frame] &&
                (old.frames[frame] < old.links[link]) != (new.frames[frame] < new.links[link]))
                return false;
    return true;
}

/* Whether a task or handler acts in the schedule. */
static bool has_driver(const uint16_t *schedule, uint32_t points)
{
    for (uint32_t k = 0; k < points; k++)
        if (!nicxi_is_value(schedule[k]) && nicxi.actors[schedule[k]].kind == BY_THREAD)
            return true;
    return false;
}

/* Whether a failing schedule still involves the driver, and the same order of frames and link changes. */
static bool is_fit(const struct shrinking *it, uint32_t points)
{
    return keeps_arrivals(it, points) &&
           (has_driver(it->post->schedule, points) || !has_driver(it->best->schedule, it->best->result.points));
}

/* With more left out, a schedule is better unless it is longer. Otherwise it is better with fewer switches, or with
   fewer points. A schedule with a known cycle is better than one without. */
static bool is_better(const struct shrinking *it, uint32_t points, uint32_t switches)
{
    const nicx_result *old = &it->best->result;
    if (!nicxi_is_the_same(&it->post->result, old) || !is_fit(it, points))
        return false;
    if (!it->post->cycle != !it->best->cycle)
        return it->post->cycle != 0;
    if (memcmp(&it->omitted, &it->best->omitted, sizeof it->omitted) != 0)
        return switches <= old->switches && points <= old->points;
    if (it->post->cycle)
        return points < old->points || (points == old->points && switches < old->switches);
    if (switches != old->switches || points != old->points)
        return switches < old->switches || (switches == old->switches && points < old->points);
    return nicxi_sum_of_values(it->post->schedule, points) < nicxi_sum_of_values(it->best->schedule, points);
}

static void take_over(struct shrinking *it, uint32_t points, uint32_t switches)
{
    it->best->result = it->post->result;
    it->best->result.points = points;
    it->best->result.switches = switches;
    it->best->cycle = it->post->cycle;
    it->best->omitted = it->omitted;
    memcpy(it->best->schedule, it->post->schedule, points * sizeof *it->list);
}

bool nicxi_shrinking_is_over(const struct shrinking *it)
{
    return it->tries >= MOST_TRIES || nicxi_is_over(&it->limit);
}

/* If the attempt fails and is better, the schedule that actually ran becomes the best. */
bool nicxi_attempt(struct shrinking *it)
{
    if (nicxi_shrinking_is_over(it))
        return false;
    it->tries++;
    it->post->cycle = 0;
    if (!nicxi_do(it->post, it->options->hang, follow, it))
        return false;
    uint32_t points = it->post->cycle ? it->post->result.points : it->post->at;
    uint32_t switches = nicxi_switches(it->post->schedule, points);
    if (!is_better(it, points, switches))
        return false;
    take_over(it, points, switches);
    return true;
}

static void take_range(struct shrinking *it, uint32_t from, uint32_t to)
{
    if (to > from)
        memcpy(it->list + it->length, it->best->schedule + from, (to - from) * sizeof *it->list);
    it->length += to > from ? to - from : 0;
}

/* Returns the end of the stretch of one actor's points that begins at `at`. */
static uint32_t end_of(const struct failure *best, uint32_t at)
{
    uint32_t end = at + 1;
    while (end < best->result.points && best->schedule[end] == best->schedule[at])
        end++;
    return end;
}

static uint32_t next_of(const struct failure *best, uint32_t from, uint16_t actor)
{
    while (from < best->result.points && best->schedule[from] != actor)
        from++;
    return from;
}

/* Keeps only the first points; after them, the actor that acted last continues. */
static bool try_beginnings(struct shrinking *it)
{
    for (uint32_t length = 0; length < it->best->result.points && !nicxi_shrinking_is_over(it);
         length += 1 + length / 8) {
        it->length = 0;
        take_range(it, 0, length);
        if (nicxi_attempt(it))
            return true;
    }
    return false;
}

/* Tries three changes: removing a stretch; moving it later, to just before the next stretch of the same actor; moving
   that next stretch earlier, to just after it. */
static bool try_stretch(struct shrinking *it, uint32_t at)
{
    uint32_t end = end_of(it->best, at), length = it->best->result.points;
    uint32_t next = next_of(it->best, end, it->best->schedule[at]);
    it->length = 0;
    take_range(it, 0, at);
    take_range(it, end, length);
    if (nicxi_attempt(it))
        return true;
    if (next == length)
        return false;
    uint32_t next_end = end_of(it->best, next);
    it->length = 0;
    take_range(it, 0, at);
    take_range(it, end, next);
    take_range(it, at, end);
    take_range(it, next, length);
    if (nicxi_attempt(it))
        return true;
    it->length = 0;
    take_range(it, 0, end);
    take_range(it, next, next_end);
    take_range(it, end, next);
    take_range(it, next_end, length);
    return nicxi_attempt(it);
}

static bool try_stretches(struct shrinking *it)
{
    bool any = false;
    for (uint32_t at = 0; at < it->best->result.points && !nicxi_shrinking_is_over(it);) {
        if (try_stretch(it, at))
            any = true;
        else
            at = end_of(it->best, at);
    }
    return any;
}

/* Lowers values: to 0, to half, by one. */
static bool try_values(struct shrinking *it)
{
    bool any = false;
    for (uint32_t at = 0; at < it->best->result.points && !nicxi_shrinking_is_over(it); at++) {
        for (uint32_t way = 0; way < 3; way++) {
            uint16_t actor = it->best->schedule[at];
            if (!nicxi_is_value(actor) || actor == VALUES)
                break;
            it->length = 0;
            take_range(it, 0, it->best->result.points);
            it->list[at] = way == 0 ? VALUES : (uint16_t)(way == 1 ? VALUES + (actor - VALUES) / 2 : actor - 1);
            any |= nicxi_attempt(it);
        }
    }
    return any;
}

static void shrink_order(struct shrinking *it)
{
    bool goes_on = true;
    while (goes_on) {
        goes_on = try_beginnings(it);
        goes_on = try_stretches(it) || goes_on;
        goes_on = try_values(it) || goes_on;
    }
}

/* --- if something is left out, the failure may need another order: searches for it at random --- */

static void fail_by_chance(struct post *post, void *argument)
{
    const struct shrinking *it = argument;
    struct by_chance state;
    nicxi_be_quiet();
    nicxi.omitted = it->omitted;
    for (uint64_t k = 0; k < BY_CHANCE && !post->is_found; k++) {
        nicx_chooser chooser = nicxi_by_chance(&state, it->options->seed, k);
        nicx_run(&chooser, &post->result);
        post->is_found = nicxi_is_the_same(&post->result, &it->best->result);
    }
}

bool nicxi_attempt_by_chance(struct shrinking *it)
{
    struct failure kept = *it->best;
    if (nicxi_shrinking_is_over(it) || kept.result.outcome == NICX_ENDLESS || kept.result.outcome == NICX_HANG)
        return false;
    it->tries++;
    it->post->cycle = 0;
    if (!nicxi_do(it->post, it->options->hang, fail_by_chance, it) ||
        !nicxi_is_the_same(&it->post->result, &kept.result) || !is_fit(it, it->post->at))
        return false;
    uint16_t *schedule = malloc(kept.result.points * sizeof *schedule + 1);
    if (!schedule)
        return false;
    memcpy(schedule, kept.schedule, kept.result.points * sizeof *schedule);
    take_over(it, it->post->at, nicxi_switches(it->post->schedule, it->post->at));
    shrink_order(it);
    const nicx_result *new = &it->best->result;
    bool is_smaller = new->points + new->switches <= kept.result.points + kept.result.switches;
    if (!is_smaller) {
        *it->best = kept;
        memcpy(it->best->schedule, schedule, kept.result.points * sizeof *schedule);
    }
    free(schedule);
    return is_smaller;
}

static void follow_to_the_letter(struct post *post, void *argument)
{
    const struct failure *failure = argument;
    struct by_list state;
    nicxi_be_quiet();
    nicxi.omitted = failure->omitted;
    nicx_chooser chooser = nicxi_by_list(&state, failure->schedule, failure->result.points, true);
    state.cycle = failure->cycle;
    nicx_run(&chooser, &post->result);
    post->is_found = post->result.outcome != NICX_FINE;
}

/* Whether the schedule alone fails as before. */
static bool fails_again(const struct options *options, struct post *post, const struct failure *failure)
{
    return nicxi_do(post, options->hang, follow_to_the_letter, (void *)(uintptr_t)failure) &&
           nicxi_is_the_same(&post->result, &failure->result);
}

bool nicxi_fails(const struct options *options, const struct failure *failure)
{
    struct post *post = nicxi_posts(1);
    bool fails = post && fails_again(options, post, failure);
    if (post)
        nicxi_free_posts(post, 1);
    return fails;
}

void nicxi_confirm(const struct options *options, struct failure *failure)
{
    struct post *post = failure->is_stale ? NULL : nicxi_posts(1);
    if (!post)
        return;
    failure->is_stale = !fails_again(options, post, failure);
    if (failure->is_stale) {
        nicx_result found = failure->result;
        failure->result.outcome = NICX_MISUSE;
        snprintf(failure->result.words, sizeof failure->result.words,
                 "begin doesn't initialize all of the driver's state: the schedule fails only after other schedules, "
                 "with %s: %.120s",
                 nicxi_outcome_name(found.outcome), found.words);
    }
    nicxi_free_posts(post, 1);
}

static void shrink(struct shrinking *it)
{
    do {
        shrink_order(it);
        bool any = nicxi_omit(it);
        it->omitted = it->best->omitted;
        if (!any)
            return;
    } while (!nicxi_shrinking_is_over(it));
}

/* If the shrunk schedule doesn't fail alone, keeps the failure as it was found. */
uint32_t nicxi_shrink(const struct options *options, struct failure *failure)
{
    size_t size = ((size_t)nicxi.most_points + 1) * sizeof *failure->schedule;
    struct failure best = *failure;
    struct shrinking it = {.options = options,
                           .best = &best,
                           .post = nicxi_posts(1),
                           .omitted = failure->omitted,
                           .list = malloc(size),
                           .limit = nicxi_limit(MOST_SECONDS)};
    best.schedule = malloc(size);
    if (it.post && it.list && best.schedule) {
        memcpy(best.schedule, failure->schedule, failure->result.points * sizeof *best.schedule);
        shrink(&it);
        if (fails_again(options, it.post, &best)) {
            uint16_t *schedule = failure->schedule;
            *failure = best;
            best.schedule = schedule;
        }
    }
    if (it.post)
        nicxi_free_posts(it.post, 1);
    free(it.list);
    free(best.schedule);
    return it.tries;
}
