/* The files of a failure: its schedule, and a script of the device's events. */
#ifndef NICX_FILES_H
#define NICX_FILES_H

#include <stdio.h>

#include "engine.h"
#include "places.h"

/* --- the schedule: one line per point --- */

/* The origin of a failure, for the comments at the top of its files. */
struct origin {
    const char *where;
    uint64_t seed;
    const nicx_result *result;
    const struct omitted *omitted;
};

void nicxi_write_head(FILE *file, const struct origin *origin);
/* Writes the line of a point. Takes a listener's arguments. */
void nicxi_write_point(FILE *file, uint16_t actor, const struct step *step);

/* Returns the actor with this name in a file, or NOBODY. */
uint16_t nicxi_actor_of(const char *words);

struct schedule_file {
    uint16_t *list;
    uint32_t *lines;    /* the line of each point, from 1 */
    char **description; /* the comment of each point, or null */
    uint32_t length;
    uint32_t last;  /* the number of the last line */
    uint32_t cycle; /* number of repeating points at the end; 0: none */
    bool is_weak;   /* found with weak memory */
    char other[64]; /* the scenario that it belongs to, or "" for this one */
    struct omitted omitted;
};

/* Reads a schedule. Returns null or "PATH:LINE: why", which is valid until the next call. Call nicxi_list_actors first.
   If lenient, the file may belong to another scenario: actors that this scenario lacks become NOBODY, and whatever else
   it lacks is left out. */
const char *nicxi_read_schedule(const char *path, bool is_lenient, struct schedule_file *file);
void nicxi_free_schedule(struct schedule_file *file);

/* --- the script --- */

struct script {
    FILE *file;
    uint32_t instructions, strings;
    const char *unfit;      /* why the script ends before the run does, or null */
    char where[MOST_PLACE]; /* the place of the step being written */
};

void nicxi_script_begin(struct script *script, FILE *file, const struct origin *origin);
void nicxi_script_step(struct script *script, uint16_t actor, const struct step *step);
/* Writes the last line, after the failing step: nicview shows the failure's words at the top of its page. */
void nicxi_script_end(FILE *file, const nicx_result *result);

#endif
