/* A thread's place in the source is read from its stack while its step is reported, so it costs nothing in a schedule
   without step listeners. When a thread takes a step, the listener runs on that thread's stack, except when the thread
   begins. */
#define _GNU_SOURCE
#include "places.h"

#include <stdio.h>
#include <string.h>
#include <unwind.h>

#include "parts.h"
#include "words.h"

enum { MOST_FRAMES = 64, MOST_OBJECT = 2 * MOST_TEXT };

unsigned (*nicxi_ask_for_lines)(struct source_line *lines, unsigned most);
unsigned (*nicxi_ask_for_begin)(const struct thread *thread, struct source_line *lines, unsigned most);
unsigned (*nicxi_ask_for_wait)(const struct thread *thread, struct source_line *lines, unsigned most);

struct frames {
    const void *calls[MOST_FRAMES]; /* addresses inside the calls, not return addresses */
    unsigned count;
};

static _Unwind_Reason_Code note_frame(struct _Unwind_Context *context, void *argument)
{
    struct frames *frames = argument;
    int is_before = 0;
    uintptr_t at = (uintptr_t)_Unwind_GetIPInfo(context, &is_before);
    if (!at || frames->count == MOST_FRAMES)
        return _URC_END_OF_STACK;
    frames->calls[frames->count++] = (const void *)(is_before ? at : at - 1);
    return _URC_NO_REASON;
}

static bool has_prefix(const char *name, const char *prefix)
{
    return !strncmp(name, prefix, strlen(prefix));
}

/* Whether a call is one of nic82599_explore.h's, or one that a link form substitutes for the driver's own call. */
static bool is_of_engine(const void *call)
{
    char name[MOST_SYMBOL];
    return nicxi_symbol(call, name, sizeof name) &&
           (has_prefix(name, "nicx_") || has_prefix(name, "nicxi_") || has_prefix(name, "nicxo_") ||
            has_prefix(name, "__wrap_") || has_prefix(name, "__tsan_"));
}

/* Returns the index of the driver's first frame: after the last of the engine's frames, if the engine was called. */
static unsigned first_of_driver(const struct frames *frames, unsigned end)
{
    unsigned first = 0;
    for (unsigned k = 0; k < end; k++)
        if (is_of_engine(frames->calls[k]))
            first = k + 1;
    return first;
}

/* Returns the driver's function that a thread starts with. */
static const void *function_of(const struct thread *thread)
{
    const void *function = nicxi_form && thread->is_made ? nicxi_form->function_of(thread) : NULL;
    return function ? function : (const void *)(uintptr_t)thread->function;
}

/* Returns the number of frames up to and including that function. The frames after it belong to its caller. */
static unsigned end_of_thread(const struct frames *frames, const struct thread *self)
{
    const void *own = function_of(self), *caller = (const void *)(uintptr_t)self->function;
    for (unsigned k = 0; k < frames->count; k++) {
        const void *function = nicxi_function(frames->calls[k]);
        if (function == own || function == caller)
            return k + (function == own);
    }
    return frames->count;
}

/* Lines in other languages' libraries reveal nothing about the driver. */
static bool is_of_library(const char *file)
{
    return strstr(file, "/nic82599/src/explore/") || strstr(file, "/nic82599/src/drive/") ||
           has_prefix(file, "/rustc/") || strstr(file, "/library/core/") || strstr(file, "/library/std/") ||
           strstr(file, "/library/alloc/") || strstr(file, "/include/c++/") || strstr(file, "/explore/engine/") ||
           strstr(file, "/explore/threads/") || strstr(file, "/explore/python/");
}

/* Whether a file is the report card's: its functions and scenarios don't belong to the driver. */
static bool is_of_card(const char *file)
{
    return strstr(file, "/drive/engine/") || strstr(file, "/drive/scenarios/") || strstr(file, "/drive/python/");
}

/* Leaves out the frames through which the report card called the driver, unless the report card itself took the
   step. */
static void end_at_adapter(struct place *place)
{
    unsigned count = place->count;
    while (count && is_of_card(place->calls[count - 1].file))
        count--;
    if (count)
        place->count = count;
}

static void add_lines(struct place *place, const void *call)
{
    struct source_line lines[MOST_CALLS];
    unsigned count = nicxi_lines(call, lines, MOST_CALLS);
    for (unsigned k = 0; k < count && place->count < MOST_CALLS; k++)
        if (!is_of_library(lines[k].file))
            place->calls[place->count++] = lines[k];
}

/* Returns the thread that took a step; null for the device, the link, and a store flushed by a barrier. */
static const struct thread *thread_of(uint16_t actor, const struct step *step)
{
    if (actor == NOBODY || step->is_beside)
        return NULL;
    if (nicxi_is_value(actor))
        return nicxi.self;
    const struct actor *it = &nicxi.actors[actor];
    bool is_thread = it->kind == BY_THREAD || it->kind == BY_START || it->kind == BY_OLDER;
    return is_thread ? &nicxi.threads[it->of] : NULL;
}

/* Finds the place of the running thread, from its stack. */
static void place_here(const struct thread *thread, struct place *place)
{
    struct frames frames = {{NULL}, 0};
    place->count = nicxi_ask_for_lines ? nicxi_ask_for_lines(place->calls, MOST_CALLS) : 0;
    if (place->count)
        return;
    _Unwind_Backtrace(note_frame, &frames);
    unsigned end = end_of_thread(&frames, thread);
    unsigned first = first_of_driver(&frames, end);
    for (unsigned k = first; k < end; k++)
        add_lines(place, frames.calls[k]);
    end_at_adapter(place);
    if (first >= end)
        place->function = function_of(thread);
}

void nicxi_place(uint16_t actor, const struct step *step, struct place *place)
{
    memset(place, 0, sizeof *place);
    const struct thread *thread = thread_of(actor, step);
    if (!thread)
        return;
    if (step->kind == STEP_START || (step->kind == STEP_LOCAL && step->word == LOCAL_BEGIN)) {
        if (nicxi_ask_for_begin)
            place->count = nicxi_ask_for_begin(thread, place->calls, MOST_CALLS);
        else
            add_lines(place, function_of(thread));
        place->count = place->count ? 1 : 0;
    } else if (nicxi.self == thread) {
        place_here(thread, place);
    }
}

const char *nicxi_place_here(char room[MOST_PLACE])
{
    struct place place;
    memset(&place, 0, sizeof place);
    room[0] = 0;
    if (!nicxi_is_in_thread())
        return room;
    place_here(nicxi.self, &place);
    if (place.count > 2)
        place.count = 2;
    return nicxi_place_words(&place, room);
}

static const char *base_name(const char *path)
{
    const char *slash = strrchr(path, '/');
    return slash ? slash + 1 : path;
}

const char *nicxi_place_words(const struct place *place, char room[MOST_PLACE])
{
    size_t length = 0;
    char name[MOST_SYMBOL];
    room[0] = 0;
    if (place->function && nicxi_symbol(place->function, name, sizeof name))
        snprintf(room, MOST_PLACE, "the end of %s", name);
    for (unsigned k = 0; k < place->count; k++) {
        char one[MOST_PLACE];
        int more = snprintf(one, sizeof one, "%s%.80s:%u", k ? " < " : "", base_name(place->calls[k].file),
                            place->calls[k].line);
        if (more < 0 || length + (size_t)more >= MOST_PLACE)
            break;
        memcpy(room + length, one, (size_t)more + 1);
        length += (size_t)more;
    }
    nicxi_plain(room, room, MOST_PLACE);
    return room;
}

const char *nicxi_line_of_call(const void *return_address, char room[MOST_PLACE])
{
    struct source_line lines[MOST_CALLS];
    unsigned count = return_address ? nicxi_lines((const char *)return_address - 1, lines, MOST_CALLS) : 0;
    room[0] = 0;
    for (unsigned k = 0; k < count && !*room; k++)
        if (!is_of_library(lines[k].file) && !is_of_card(lines[k].file))
            snprintf(room, MOST_PLACE, "%.80s:%u", base_name(lines[k].file), lines[k].line);
    nicxi_plain(room, room, MOST_PLACE);
    return room;
}

const char *nicxi_line_of_wait(const struct thread *thread, char room[MOST_PLACE])
{
    struct place place = {.count = 0};
    if (!nicxi_ask_for_wait)
        return nicxi_line_of_call(thread->waits, room);
    place.count = nicxi_ask_for_wait(thread, place.calls, MOST_CALLS);
    return nicxi_place_words(&place, room);
}

/* --- the object of a wait or a lock: its source text if known, otherwise its symbol, otherwise a number --- */

/* Copies the arguments of a call in a source line, up to the closing parenthesis. Returns false if the line doesn't
   contain the whole call. */
static bool arguments_of(const char *text, const char *call, char *room, size_t size)
{
    const char *from = strstr(text, call);
    unsigned depth = 1;
    if (!from)
        return false;
    from += strlen(call);
    const char *at = from;
    for (; *at && depth; at++)
        depth += *at == '(' ? 1u : *at == ')' ? -1u : 0;
    if (depth)
        return false;
    snprintf(room, size, "%.*s", (int)(at - 1 - from), from);
    return true;
}

static bool by_source(const struct place *place, const char *call, char *room, size_t size)
{
    char text[MOST_TEXT];
    return place->count && nicxi_source(&place->calls[0], text, sizeof text) && arguments_of(text, call, room, size);
}

/* Reports "is_ready, &driver" as "is_ready(&driver)". */
static void condition_words(const struct thread *thread, const struct place *place, char room[MOST_OBJECT])
{
    char text[MOST_TEXT], function[MOST_SYMBOL], argument[MOST_SYMBOL];
    if (by_source(place, "nicx_wait_until(", text, sizeof text)) {
        char *comma = strchr(text, ',');
        if (comma) {
            *comma = 0;
            comma += 1 + strspn(comma + 1, " ");
            snprintf(room, MOST_OBJECT, " %s(%s)", text, !strcmp(comma, "NULL") ? "" : comma);
            return;
        }
    }
    room[0] = 0;
    if (nicxi_ask_for_begin || !nicxi_symbol((const void *)(uintptr_t)thread->condition, function, sizeof function))
        return;
    if (!nicxi_symbol(thread->condition_argument, argument, sizeof argument))
        argument[0] = 0;
    snprintf(room, MOST_OBJECT, " %s(%s%s)", function, *argument ? "&" : "", argument);
}

/* Locks without a name or a symbol are numbered in order of appearance. */
static unsigned number_of(const nicx_mutex *lock)
{
    static const nicx_mutex *seen[64];
    static uint64_t epoch;
    static unsigned count;
    if (epoch != nicxi.epoch)
        count = 0;
    epoch = nicxi.epoch;
    unsigned k = 0;
    while (k < count && seen[k] != lock)
        k++;
    if (k == count && count < sizeof seen / sizeof *seen)
        seen[count++] = lock;
    return k + 1;
}

static void lock_words(const struct thread *thread, const char *call, const struct place *place, char room[MOST_OBJECT])
{
    char text[MOST_TEXT];
    if (!thread->lock)
        room[0] = 0;
    else if (thread->lock->name)
        snprintf(room, MOST_OBJECT, " %s", thread->lock->name);
    else if (nicxi_symbol(thread->lock, text, sizeof text) && !strchr(text, '+'))
        snprintf(room, MOST_OBJECT, " %s", text);
    else if (by_source(place, call, text, sizeof text))
        snprintf(room, MOST_OBJECT, " %s", text[0] == '&' ? text + 1 : text);
    else if (nicxi_symbol(thread->lock, text, sizeof text))
        snprintf(room, MOST_OBJECT, " %s", text);
    else
        snprintf(room, MOST_OBJECT, " lock %u", number_of(thread->lock));
}

static void object_words(const struct step *step, const struct place *place, char room[MOST_OBJECT])
{
    const struct thread *thread = nicxi.self;
    room[0] = 0;
    if (!thread || step->kind != STEP_LOCAL)
        return;
    if (step->word == LOCAL_UNTIL)
        condition_words(thread, place, room);
    if (step->word == LOCAL_LOCK)
        lock_words(thread, "nicx_lock(", place, room);
    if (step->word == LOCAL_UNLOCK)
        lock_words(thread, "nicx_unlock(", place, room);
}

void nicxi_step_words(const struct step *step, const struct place *place, char room[MOST_DESCRIPTION],
                      char about[MOST_DESCRIPTION])
{
    char words[MOST_WORDS], object[MOST_OBJECT];
    object_words(step, place, object);
    snprintf(about, MOST_DESCRIPTION, "%s", object + (*object == ' '));
    snprintf(room, MOST_DESCRIPTION, "%s%s", nicxi_words(step, words), object);
    nicxi_plain(room, room, MOST_DESCRIPTION);
    nicxi_plain(about, about, MOST_DESCRIPTION);
}

void nicxi_tell_step(uint16_t actor, const struct step *step, char *room, size_t size)
{
    struct place place;
    char words[MOST_DESCRIPTION], about[MOST_DESCRIPTION], where[MOST_PLACE];
    nicxi_place(actor, step, &place);
    nicxi_step_words(step, &place, words, about);
    nicxi_place_words(&place, where);
    snprintf(room, size, "%s%s%s", words, *where ? " at " : "", where);
}
