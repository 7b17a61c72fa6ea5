#include "page.h"

#include <inttypes.h>
#include <string.h>

#include "objects.h"
#include "words.h"

/* The page, line by line; the data replaces the "@DATA@" line. The build generates it from page.html. */
static const char *const lines[] = {
#include "page.inc"
};

enum { LINES = sizeof lines / sizeof *lines };

static bool is_mark(const char *line)
{
    return !strcmp(line, "@DATA@\n");
}

/* Writes a JSON string into the page. Anything but printable ASCII becomes a question mark; no tag can start in it. */
static void put_text(FILE *file, const char *text)
{
    fputc('"', file);
    for (; *text; text++) {
        if (*text == '"' || *text == '\\')
            fprintf(file, "\\%c", *text);
        else if (*text == '<')
            fputs("\\u003c", file);
        else
            fputc(*text < ' ' || *text > '~' ? '?' : *text, file);
    }
    fputc('"', file);
}

static void put_field(FILE *file, const char *name, const char *text)
{
    fprintf(file, "\"%s\":", name);
    put_text(file, text);
    fputc(',', file);
}

void nicxi_page_begin(FILE *file, const struct origin *origin, const struct turn *turn, uint32_t cycle_from)
{
    char words[MOST_TURN];
    for (int k = 0; k < LINES && !is_mark(lines[k]); k++)
        fputs(lines[k], file);
    fputs("{", file);
    put_field(file, "scenario", nicxi.scenario->name);
    put_field(file, "outcome", nicxi_outcome_name(origin->result->outcome));
    put_field(file, "words", origin->result->words);
    put_field(file, "found", origin->where);
    fprintf(file, "\"seed\":\"%" PRIu64 "\",", origin->seed);
    if (turn->kind == TURN_FOUND) {
        fprintf(file, "\"turn\":%" PRIu32 ",\"tried\":%" PRIu32 ",", turn->point, turn->tried);
        put_field(file, "other", nicxi_turn_other(turn, words));
    }
    if (nicxi_fails_always(turn))
        put_field(file, "always", nicxi_turn_words(turn, words));
    if (cycle_from != NO_CYCLE)
        fprintf(file, "\"cycle\":%" PRIu32 ",", cycle_from);
    fputs("\"steps\":[\n", file);
    fflush(file);
}

/* Reads a source line. For a function's opening brace, reads the line before it. */
static bool source_of(struct source_line line, char *room, size_t size)
{
    if (!nicxi_source(&line, room, size))
        return false;
    if (strcmp(room, "{") != 0 || line.line == 1)
        return true;
    line.line--;
    return nicxi_source(&line, room, size);
}

static void put_place(FILE *file, const struct place *place)
{
    char text[MOST_TEXT], where[MOST_PLACE];
    if (*nicxi_place_words(place, where))
        put_field(file, "at", where);
    if (place->count && source_of(place->calls[0], text, sizeof text))
        put_field(file, "source", text);
    if (place->count > 1 && source_of(place->calls[place->count - 1], text, sizeof text))
        put_field(file, "outer", text);
}

void nicxi_page_step(FILE *file, uint16_t actor, const struct step *step)
{
    char name[96], words[MOST_DESCRIPTION], about[MOST_DESCRIPTION];
    struct place place;
    struct objects objects;
    nicxi_place(actor, step, &place);
    nicxi_step_words(step, &place, words, about);
    nicxi_objects(step, about, &objects);
    fputs("{", file);
    put_field(file, "actor", nicx_actor_name(actor, name));
    put_field(file, "words", words);
    put_place(file, &place);
    fputs("\"objects\":[", file);
    for (uint32_t k = 0; k < objects.count; k++) {
        if (k)
            fputc(',', file);
        put_text(file, objects.names[k]);
    }
    fputs("]},\n", file);
    fflush(file);
}

void nicxi_page_end(FILE *file)
{
    int k = 0;
    fputs("]}\n", file);
    while (k < LINES && !is_mark(lines[k]))
        k++;
    for (k++; k < LINES; k++)
        fputs(lines[k], file);
}
