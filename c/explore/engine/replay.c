/* Replays, in this process, a schedule that is read from a file, so that you can attach a debugger. An exact replay
   refuses a schedule that doesn't fit. A lenient one follows the file as far as possible: it prints where a changed
   driver departs from the file, and then uses those of the remaining points that still fit, until a verdict. */
#include "replay.h"

#include <inttypes.h>
#include <stdio.h>
#include <string.h>

#include "files.h"
#include "process.h"
#include "strategy.h"
#include "words.h"

enum { FINE = 0, FAILED = 1, REFUSED = 2 };

struct replay {
    const char *path;
    FILE *to; /* output for points and the verdict */
    struct schedule_file file;
    bool is_lenient;
    uint32_t at;     /* the file's next point */
    uint32_t asked;  /* the last point at which an actor was chosen, plus 1 */
    uint32_t now;    /* the file's point being replayed; `length` if none */
    bool has_parted; /* printed after the next step */
    bool is_described;
    char reason[192]; /* why the file's point can't be replayed */
};

/* --- where the driver departs from the file --- */

static void print_file_point(const struct replay *it, uint32_t point)
{
    char name[96];
    if (point == it->file.length)
        fprintf(it->to, "the end");
    else if (it->file.list[point] == NOBODY)
        fprintf(it->to, "%s", it->file.description[point]);
    else
        fprintf(it->to, "%s%s%s", nicx_actor_name(it->file.list[point], name), it->file.description[point] ? ", " : "",
                it->file.description[point] ? it->file.description[point] : "");
}

static void part(struct replay *it, uint32_t point, const char *reason)
{
    if (it->has_parted)
        return;
    it->has_parted = true;
    it->now = point;
    snprintf(it->reason, sizeof it->reason, "%s", reason);
}

static void tell_parting(struct replay *it, const char *now)
{
    const char *name = nicxi.scenario->name;
    if (!it->has_parted || it->is_described)
        return;
    it->is_described = true;
    fprintf(it->to, "%s: the run departs from the schedule here, at %s:%u%s\n%s:   it was: ", name, it->path,
            (unsigned)(it->now < it->file.length ? it->file.lines[it->now] : it->file.last), it->reason, name);
    print_file_point(it, it->now);
    fprintf(it->to, "\n%s:   it is:  %s\n", name, now);
}

/* Whether the file's comment agrees with the description printed now. Line numbers may differ, and either text may lack
   the place. */
static bool is_as_described(const char *before, const char *now)
{
    size_t length = strlen(now);
    const char *at = NULL;
    for (const char *more = strstr(before, " at "); more; more = strstr(more + 1, " at "))
        at = more;
    size_t old = at ? (size_t)(at - before) : strlen(before);
    size_t least = old < length ? old : length;
    return !strncmp(before, now, least) && (old == length || (old > length ? before : now)[least] == ' ');
}

static void compare(struct replay *it, uint16_t actor, const struct step *step)
{
    char description[MOST_DESCRIPTION], name[96], line[MOST_DESCRIPTION + 100];
    nicxi_tell_step(actor, step, description, sizeof description);
    snprintf(line, sizeof line, "%s, %s", nicx_actor_name(actor, name), description);
    char *at = strstr(description, " at ");
    if (at && !nicxi_is_device_step(step->kind))
        *at = 0;
    if (it->now == it->file.length ||
        (it->file.description[it->now] && !is_as_described(it->file.description[it->now], description)))
        part(it, it->now, "");
    tell_parting(it, line);
}

/* --- choosing the actor --- */

static uint32_t choose(void *argument, const uint16_t *can, uint32_t count)
{
    struct replay *it = argument;
    uint32_t point = *nicxi.points;
    if (it->asked == point + 1 && it->now < it->file.length)
        part(it, it->now, " (this actor has nothing to do now)");
    it->asked = point + 1;
    if (nicxi_is_value(can[0]) && (it->at == it->file.length || !nicxi_is_value(it->file.list[it->at]))) {
        part(it, it->at, " (a value is chosen now)");
        return 0;
    }
    if (it->at == it->file.length && it->file.cycle)
        it->at -= it->file.cycle;
    while (it->at < it->file.length) {
        uint16_t wanted = it->file.list[it->at];
        uint32_t k = nicxi_place_of(wanted, can, count);
        if (k == count && wanted != NOBODY && !nicxi_is_value(can[0]) && nicxi_may_come(wanted, can, count)) {
            it->asked = 0;
            return 0;
        }
        if (k < count) {
            if (!it->has_parted)
                it->now = it->at;
            it->at++;
            return k;
        }
        part(it, it->at++, " (this actor can't act now)");
    }
    if (!it->has_parted)
        it->now = it->file.length;
    return nicxi_goes_on(can) ? 0 : nicxi_longest_ago(can, count);
}

/* --- output --- */

static void print_point(void *argument, uint16_t actor, const struct step *step)
{
    struct replay *it = argument;
    uint32_t point = *nicxi.points - 1;
    if (actor == NOBODY || step->is_beside)
        return;
    if (it->file.cycle && point == it->file.length && !it->has_parted)
        fprintf(it->to, "      and so on: the last %" PRIu32 " points repeat\n", it->file.cycle);
    if (it->file.cycle && point >= it->file.length && !it->has_parted)
        return;
    if (it->is_lenient)
        compare(it, actor, step);
    fprintf(it->to, "%4" PRIu32 "  ", point);
    nicxi_write_point(it->to, actor, step);
    fflush(it->to);
}

/* Returns null, or where the file doesn't fit the run: at one of its points, at its end, or because the run ended
   first. */
static const char *unfit(const struct replay *it, const struct by_list *state, uint32_t points)
{
    char name[96];
    const struct schedule_file *file = &it->file;
    uint32_t at = state->unfit;
    if (file->cycle && at >= file->length)
        at = file->length - file->cycle + (at - file->length) % file->cycle;
    if (state->is_unfit && at < file->length)
        return nicxi_why("%.3900s:%u: \"%s\" can't act at this point", it->path, (unsigned)file->lines[at],
                         nicx_actor_name(file->list[at], name));
    if (state->is_unfit || (points > file->length && !file->cycle))
        return nicxi_why("%.3900s:%u: the schedule ends, but an actor can still act", it->path, (unsigned)file->last);
    if (points < file->length)
        return nicxi_why("%.3900s:%u: the run ends before this point", it->path, (unsigned)file->lines[points]);
    return NULL;
}

void nicxi_tell_notes(FILE *to, const struct notes *notes)
{
    const char *name = nicxi.scenario->name;
    if (notes->strays)
        fprintf(to, "%s: note: %" PRIu32 " access%s to addresses without a register, the first by %s\n", name,
                notes->strays, notes->strays == 1 ? "" : "es", notes->stray);
    if (notes->beyond)
        fprintf(to, "%s: note: queue %" PRIu32 " isn't below .queues, so it never turns on\n", name, notes->beyond - 1);
}

static void tell_end(struct replay *it, const nicx_result *result)
{
    const char *name = nicxi.scenario->name;
    if (it->is_lenient && !it->has_parted && it->at < it->file.length)
        part(it, it->at, " (the run never reaches this point)");
    tell_parting(it, "the run ends");
    nicxi_tell_notes(it->to, nicxi.notes);
    if (it->is_lenient && !it->has_parted)
        fprintf(it->to, "%s: the run follows the whole schedule\n", name);
    if (result->outcome == NICX_FINE)
        fprintf(it->to, "%s: fine\n", name);
    else
        fprintf(it->to, "%s: FAILED %s: %s\n", name, nicxi_outcome_name(result->outcome), result->words);
}

static const char *follow(struct replay *it, nicx_result *result)
{
    struct by_list state;
    nicx_chooser chooser = nicxi_by_list(&state, it->file.list, it->file.length, true);
    state.cycle = it->file.cycle;
    if (it->is_lenient) {
        chooser.choose = choose;
        chooser.argument = it;
    }
    nicxi.omitted = it->file.omitted;
    nicxi.listener = print_point;
    nicxi.listener_argument = it;
    nicx_run(&chooser, result);
    nicxi.listener = NULL;
    memset(&nicxi.omitted, 0, sizeof nicxi.omitted);
    const char *fault = it->is_lenient ? NULL : unfit(it, &state, result->points);
    if (!fault)
        tell_end(it, result);
    return fault;
}

const char *nicxi_follow(FILE *to, const char *path, bool is_lenient, nicx_result *result)
{
    static struct replay it;
    memset(&it, 0, sizeof it);
    it.path = path;
    it.to = to;
    it.is_lenient = is_lenient;
    const char *fault = nicxi_read_schedule(path, is_lenient, &it.file);
    if (!fault && *it.file.other)
        fprintf(to, "%s: note: the schedule is for scenario %s\n", nicxi.scenario->name, it.file.other);
    if (!fault)
        fault = follow(&it, result);
    nicxi_free_schedule(&it.file);
    return fault;
}

int nicxi_replay(const char *path, bool is_lenient)
{
    nicx_result result;
    nicxi_catch_overflows(NULL);
    const char *fault = nicxi_follow(stdout, path, is_lenient, &result);
    if (fault)
        fprintf(stderr, "%s\n", fault);
    return fault ? REFUSED : result.outcome == NICX_FINE ? FINE : FAILED;
}
