/* The first line that isn't a comment names the schedule's scenario. Next come lines about what the schedule leaves
   out; each further line is an actor. A "cycle" line precedes the points that repeat. */
#include <inttypes.h>
#include <stdlib.h>
#include <string.h>

#include "files.h"
#include "parts.h"
#include "places.h"
#include "weak.h"
#include "words.h"

enum { MOST_LINE = 1024 };

static void write_omitted(FILE *file, const struct omitted *omitted)
{
    for (int k = 0; k < MOST_THREADS; k++)
        if (omitted->threads[k])
            fprintf(file, "without %s %s\n", k < NICX_TASKS ? "task" : "handler", nicxi.threads[k].name);
    for (int k = 0; k < NICX_FRAMES; k++)
        if (omitted->frames[k])
            fprintf(file, "without frame %d\n", k);
    for (int k = 0; k < NICX_FRAMES; k++)
        if (omitted->links[k])
            fprintf(file, "without link %d\n", k);
}

void nicxi_write_head(FILE *file, const struct origin *origin)
{
    char words[sizeof origin->result->words];
    nicxi_plain(origin->result->words, words, sizeof words);
    fprintf(file, "# %s: %s\n", nicxi_outcome_name(origin->result->outcome), words);
    fprintf(file, "# found by %s of seed %" PRIu64 "; the actor at each point:\n", origin->where, origin->seed);
    fprintf(file, "scenario %s\n", nicxi.scenario->name);
    if (nicxi.is_weak)
        fprintf(file, "memory %s\n", nicxi_memory_word(nicxi_memory()));
    if (nicxi_asked_points)
        fprintf(file, "points %s\n", nicxi_asked_points);
    write_omitted(file, origin->omitted);
}

void nicxi_write_point(FILE *file, uint16_t actor, const struct step *step)
{
    char name[96], description[MOST_DESCRIPTION];
    nicxi_tell_step(actor, step, description, sizeof description);
    fprintf(file, "%-24s # %s\n", nicx_actor_name(actor, name), description);
}

/* Removes blanks at both ends, and reduces each run of blanks to one. */
static void trim(char *line)
{
    char *to = line;
    for (char *from = line; *from; from++) {
        bool blank = *from == ' ' || *from == '\t' || *from == '\n' || *from == '\r';
        if (!blank)
            *to++ = *from;
        else if (to > line && to[-1] != ' ')
            *to++ = ' ';
    }
    if (to > line && to[-1] == ' ')
        to--;
    *to = 0;
}

uint16_t nicxi_actor_of(const char *words)
{
    char name[96];
    for (uint16_t k = VALUES; !strncmp(words, "value ", 6) && k < VALUES + NICX_VALUES; k++)
        if (!strcmp(nicx_actor_name(k, name), words))
            return k;
    for (uint16_t k = 0; k < nicxi.count; k++)
        if (!strcmp(nicx_actor_name(k, name), words))
            return k;
    return NOBODY;
}

/* The lists' capacity is a power of two. */
static bool has_room(struct schedule_file *file)
{
    if (file->length & (file->length - 1))
        return true;
    size_t room = file->length ? 2u * file->length : 1;
    uint16_t *list = realloc(file->list, room * sizeof *list);
    if (list)
        file->list = list;
    uint32_t *lines = realloc(file->lines, room * sizeof *lines);
    if (lines)
        file->lines = lines;
    char **description = realloc(file->description, room * sizeof *description);
    if (description)
        file->description = description;
    return list && lines && description;
}

static const char *add(struct schedule_file *file, uint16_t actor, const char *description)
{
    if (file->length == MOST_POINTS)
        return "a schedule has at most 1,000,000 points";
    if (!has_room(file))
        return "out of memory";
    file->list[file->length] = actor;
    file->lines[file->length] = file->last;
    file->description[file->length] = NULL;
    if (description && *description) {
        size_t size = strlen(description) + 1;
        file->description[file->length] = malloc(size);
        if (!file->description[file->length])
            return "out of memory";
        memcpy(file->description[file->length], description, size);
    }
    file->length++;
    return NULL;
}

/* --- a line --- */

static const char *take_scenario(struct schedule_file *file, const char *words, bool is_lenient)
{
    if (strncmp(words, "scenario ", 9) != 0)
        return "the first line must be \"scenario NAME\"";
    if (!strcmp(words + 9, nicxi.scenario->name))
        return NULL;
    snprintf(file->other, sizeof file->other, "%.63s", words + 9);
    if (is_lenient)
        return NULL;
    return nicxi_why("the schedule is for scenario %s, but this program is %s", words + 9, nicxi.scenario->name);
}

/* Parses a number below a bound; returns the bound if the string isn't such a number. */
static unsigned number_of(const char *text, unsigned bound)
{
    unsigned number = 0;
    if (!*text)
        return bound;
    for (; *text; text++) {
        if (*text < '0' || *text > '9' || number >= bound)
            return bound;
        number = 10 * number + (unsigned)(*text - '0');
    }
    return number < bound ? number : bound;
}

/* Returns the entry that says whether this is left out, or null if the scenario doesn't contain it. */
static bool *omission_of(struct omitted *omitted, const char *words)
{
    unsigned frame = strncmp(words, "frame ", 6) ? nicxi.frame_count : number_of(words + 6, nicxi.frame_count);
    unsigned link = strncmp(words, "link ", 5) ? nicxi.link_count : number_of(words + 5, nicxi.link_count);
    uint16_t actor = nicxi_actor_of(words);
    if (frame < nicxi.frame_count)
        return &omitted->frames[frame];
    if (link < nicxi.link_count)
        return &omitted->links[link];
    return actor != NOBODY && !nicxi_is_value(actor) && nicxi.actors[actor].kind == BY_THREAD
               ? &omitted->threads[nicxi.actors[actor].of]
               : NULL;
}

static const char *take_without(struct schedule_file *file, const char *words, bool is_lenient)
{
    bool *entry = omission_of(&file->omitted, words);
    if (file->length)
        return "\"without\" lines must precede the first point";
    if (entry)
        *entry = true;
    if (entry || is_lenient)
        return NULL;
    return nicxi_why("the scenario has no \"%s\"", words);
}

static const char *take_points(const struct schedule_file *file, const char *words)
{
    static char points[MOST_LINE];
    if (file->length)
        return "the \"points\" line must precede the first point";
    snprintf(points, sizeof points, "%s", words);
    const char *fault = nicxi_ask_for_points(points);
    if (!fault)
        return NULL;
    return nicxi_why("points: \"%.100s\": %s", words, fault);
}

/* Returns null, or what is wrong with a line. */
static const char *take(struct schedule_file *file, const char *words, const char *description, bool is_lenient)
{
    if (!file->length && (!strcmp(words, "memory weak") || !strcmp(words, "memory tso"))) {
        file->is_weak = true;
        return nicxi_change_memory(words[7] == 'w' ? WEAK : TSO);
    }
    if (!file->length && !file->is_weak)
        nicxi_change_memory(STRONG);
    uint16_t actor = nicxi_actor_of(words);
    if (!strncmp(words, "points ", 7))
        return take_points(file, words + 7);
    if (!strncmp(words, "without ", 8))
        return take_without(file, words + 8, is_lenient);
    if (!strcmp(words, "cycle")) {
        if (file->cycle)
            return "the file already has a cycle";
        file->cycle = file->length + 1;
        return NULL;
    }
    if (actor == NOBODY && !is_lenient)
        return nicxi_why("the scenario has no \"%s\"", words);
    if (actor == NOBODY)
        description = nicxi_why("\"%s\" (not in the scenario)", words);
    return add(file, actor, description);
}

/* Whether a line is complete and contains no NUL and no control characters other than tabs and line endings. */
static bool is_text(const char *line, size_t length, bool is_last)
{
    for (size_t k = 0; k < length; k++)
        if ((unsigned char)line[k] < ' ' && !strchr("\t\r\n", line[k]))
            return false;
    return length && (line[length - 1] == '\n' || is_last || length == MOST_LINE - 1);
}

/* Parses a line, and the comment at its end. */
static const char *take_line(struct schedule_file *file, char *line, bool is_last, bool is_lenient, bool *has_scenario)
{
    size_t length = strlen(line);
    if (!is_text(line, length, is_last))
        return "the line isn't printable ASCII";
    if (line[length - 1] != '\n' && !is_last)
        return "the line is longer than 1,022 bytes";
    char *comment = strchr(line, '#');
    if (comment) {
        *comment++ = 0;
        trim(comment);
    }
    trim(line);
    nicxi_plain(line, line, MOST_LINE); /* a refusal quotes it */
    if (!*line)
        return NULL;
    if (*has_scenario)
        return take(file, line, comment ? comment + (*comment == ' ') : NULL, is_lenient);
    *has_scenario = true;
    return take_scenario(file, line, is_lenient);
}

/* Converts the cycle's start to its length. */
static const char *end_cycle(struct schedule_file *file)
{
    if (!file->cycle)
        return NULL;
    file->cycle = file->length - (file->cycle - 1);
    return file->cycle ? NULL : "the cycle has no point";
}

const char *nicxi_read_schedule(const char *path, bool is_lenient, struct schedule_file *file)
{
    char line[MOST_LINE];
    const char *fault = NULL;
    bool has_scenario = false;
    memset(file, 0, sizeof *file);
    FILE *from = fopen(path, "r");
    if (!from)
        return nicxi_why("%.500s: can't read the file", path);
    while (!fault && fgets(line, sizeof line, from)) {
        file->last++;
        fault = take_line(file, line, feof(from) != 0, is_lenient, &has_scenario);
    }
    bool is_unread = ferror(from) != 0;
    fclose(from);
    if (is_unread)
        return nicxi_why("%.500s: can't read the file", path);
    if (!fault && !has_scenario)
        fault = "missing line \"scenario NAME\"";
    if (!fault)
        fault = end_cycle(file);
    if (!fault)
        return NULL;
    return nicxi_why("%.500s:%u: %s", path, (unsigned)file->last, fault);
}

void nicxi_free_schedule(struct schedule_file *file)
{
    for (uint32_t k = 0; k < file->length; k++)
        free(file->description[k]);
    free(file->list);
    free(file->lines);
    free(file->description);
    memset(file, 0, sizeof *file);
}
