/* Writes the files of a failure while its schedule runs again, line by line, because the driver may crash. */
#include "keep.h"

#include <inttypes.h>
#include <string.h>

#include "files.h"
#include "page.h"
#include "strategy.h"
#include "weak.h"

struct writing {
    FILE *schedule, *page;
    struct script script;
    const struct failure *failure;
    const struct turn *turn;
};

/* Writes a comment before the turning point. */
static void write_turn(struct writing *it)
{
    char words[MOST_TURN];
    fprintf(it->schedule, "# %s\n", nicxi_turn_words(it->turn, words));
}

static void write_step(void *argument, uint16_t actor, const struct step *step)
{
    struct writing *it = argument;
    const struct failure *failure = it->failure;
    uint32_t point = actor == NOBODY ? 0 : *nicxi.points - 1;
    if (failure->cycle && point >= failure->result.points)
        return;
    nicxi_script_step(&it->script, actor, step);
    fflush(it->script.file);
    if (actor == NOBODY || step->is_beside)
        return;
    if (failure->cycle && point == failure->result.points - failure->cycle)
        fprintf(it->schedule, "cycle                    # repeats from here on:\n");
    if (it->turn->kind == TURN_FOUND && point == it->turn->point)
        write_turn(it);
    nicxi_write_point(it->schedule, actor, step);
    fflush(it->schedule);
    nicxi_page_step(it->page, actor, step);
}

/* The bring-up is written too, by running it again from the start with a new controller. */
static void write_files(struct post *post, void *argument)
{
    struct writing *it = argument;
    struct by_list state;
    const nicx_scenario *scenario = nicxi.scenario;
    nicxi_give_memory(nicxi_memory());
    nicx_close();
    nicxi.listener = write_step;
    nicxi.listener_argument = it;
    if (nicx_open(scenario))
        return;
    nicxi_note_in(post);
    nicxi.omitted = it->failure->omitted;
    nicx_chooser chooser =
        nicxi_by_list(&state, it->failure->schedule, it->failure->result.points, it->failure->cycle != 0);
    state.cycle = it->failure->cycle;
    nicx_run(&chooser, &post->result);
    post->is_found = post->result.outcome != NICX_FINE;
    if (it->script.unfit)
        fprintf(stderr, "%s: the script stops before the end of the run: %s\n", scenario->name, it->script.unfit);
}

/* For the second and later failures, the files' names contain the failure's number. */
static FILE *open_file(const struct keeping *keeping, const char *ending, char path[MOST_PATH])
{
    const char *out = keeping->options->out;
    size_t length = strlen(out);
    const char *between = length && out[length - 1] == '/' ? "" : "/";
    char number[16] = "";
    if (keeping->number)
        snprintf(number, sizeof number, "-%" PRIu32, keeping->number + 1);
    snprintf(path, MOST_PATH, "%s%s%s%s.%s", out, between, nicxi.scenario->name, number, ending);
    FILE *file = fopen(path, "w");
    if (!file)
        fprintf(stderr, "%s: can't write the file\n", path);
    return file;
}

static void close_files(struct writing *it, bool has_schedule)
{
    if (has_schedule)
        fclose(it->schedule);
    fclose(it->script.file);
    fclose(it->page);
}

static void write_all(struct writing *it, const struct keeping *keeping)
{
    char where[80], words[MOST_TURN];
    const struct failure *failure = it->failure;
    struct origin origin = {nicxi_where(failure, where), keeping->seed, &failure->result, &failure->omitted};
    uint32_t cycle_from = failure->cycle ? failure->result.points - failure->cycle : NO_CYCLE;
    struct post *post = nicxi_posts(1);
    if (!post)
        return;
    nicxi_write_head(it->schedule, &origin);
    if (nicxi_fails_always(it->turn))
        fprintf(it->schedule, "# %s\n", nicxi_turn_words(it->turn, words));
    nicxi_script_begin(&it->script, it->script.file, &origin);
    nicxi_page_begin(it->page, &origin, it->turn, cycle_from);
    nicxi_do(post, keeping->options->hang, write_files, it);
    nicxi_script_end(it->script.file, &failure->result);
    nicxi_page_end(it->page);
    nicxi_free_posts(post, 1);
}

/* If the schedule's file can't be opened, the schedule is written to standard error, so that it isn't lost. */
void nicxi_keep_failure(const struct keeping *keeping, struct paths *paths)
{
    struct writing it = {NULL, NULL, {NULL, 0, 0, NULL, ""}, keeping->failure, keeping->turn};
    FILE *schedule = open_file(keeping, "schedule", paths->schedule);
    it.script.file = open_file(keeping, "nic", paths->script);
    it.page = open_file(keeping, "html", paths->page);
    it.schedule = schedule ? schedule : stderr;
    it.script.file = it.script.file ? it.script.file : fopen("/dev/null", "w");
    it.page = it.page ? it.page : fopen("/dev/null", "w");
    if (!it.script.file || !it.page)
        return;
    write_all(&it, keeping);
    close_files(&it, schedule != NULL);
}
