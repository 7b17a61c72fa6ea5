/* The link form: its interface to the engine, and helpers that its files share. */
#define _GNU_SOURCE
#include "form.h"

#include <stdarg.h>
#include <stdio.h>
#include <string.h>

#include "../engine/places.h"
#include "../engine/symbols.h"
#include "races.h"
#include "taken.h"

struct posix_thread nicxi_posix[MOST_THREADS + 1];
struct thread *nicxi_alone;
bool (*nicxi_program_opens)(uint8_t vfs, uint16_t fifo, uint32_t blocks, void **device);
void (*nicxi_program_ends)(int status);
void (*nicxi_program_part)(struct checkpoint *it);

void nicxi_program_begins(void)
{
    if (!nicxi_alone)
        return;
    nicxi.self = nicxi_alone;
    nicxi.phase = RUNNING;
    nicxi_alone = NULL;
}

/* --- output --- */

void nicxi_misuse(const char *form, ...)
{
    char words[sizeof nicxi.result.words];
    va_list list;
    va_start(list, form);
    vsnprintf(words, sizeof words, form, list);
    va_end(list);
    nicxi_failed(NICX_MISUSE, "%s", words);
    nicxi_program_begins();
    nicxi_leave();
}

void nicxi_refuse(const char *call, const void *at)
{
    char where[MOST_NAMED];
    if (!nicxi_is_ours())
        return;
    nicxi_program_begins();
    if (nicxi_is_in_thread())
        nicxi_misuse("%s calls %s at %s, which the explorer can't schedule", nicxi.self->name, call,
                     nicxi_line(at, where));
}

static const char *base_name(const char *path)
{
    const char *slash = strrchr(path, '/');
    return slash ? slash + 1 : path;
}

/* Whether a file is one of this library's headers, or of C++'s. */
static bool is_of_header(const char *file)
{
    return !strncmp(base_name(file), "nic82599", 8) || strstr(file, "/include/c++/");
}

/* An address has several lines if functions were inlined. Keeps the lines outside this library's and C++'s headers; if
   there are none, the first line. */
static unsigned lines_of(const void *at, struct source_line *lines, unsigned most)
{
    unsigned count = nicxi_lines(at, lines, most), kept = 0;
    for (unsigned k = 0; k < count; k++)
        if (!is_of_header(lines[k].file))
            lines[kept++] = lines[k];
    return kept ? kept : count ? 1 : 0;
}

const char *nicxi_line_by(const void *at, const void *caller, char room[MOST_NAMED])
{
    struct source_line lines[8];
    unsigned count = lines_of(at, lines, sizeof lines / sizeof *lines);
    if (count == 1 && caller && lines_of(caller, lines + 1, sizeof lines / sizeof *lines - 1))
        count += !is_of_header(lines[1].file);
    if (count > 1)
        snprintf(room, MOST_NAMED, "%.40s:%u < %.30s:%u", base_name(lines[0].file), lines[0].line,
                 base_name(lines[1].file), lines[1].line);
    else if (count)
        snprintf(room, MOST_NAMED, "%.60s:%u", base_name(lines[0].file), lines[0].line);
    else if (!nicxi_symbol(at, room, MOST_NAMED))
        snprintf(room, MOST_NAMED, "an unknown place");
    return room;
}

const char *nicxi_line(const void *at, char room[MOST_NAMED])
{
    struct source_line lines[8];
    if (lines_of(at, lines, sizeof lines / sizeof *lines))
        snprintf(room, MOST_NAMED, "%.60s:%u", base_name(lines[0].file), lines[0].line);
    else if (!nicxi_symbol(at, room, MOST_NAMED))
        snprintf(room, MOST_NAMED, "an unknown place");
    return room;
}

const char *nicxi_line_now(const void *at, char room[MOST_NAMED])
{
    char place[MOST_PLACE];
    if (*nicxi_place_here(place))
        snprintf(room, MOST_NAMED, "%.90s", place);
    else
        nicxi_line(at, room);
    return room;
}

const char *nicxi_name(const void *object, const char *kind, char room[MOST_NAMED])
{
    if (!nicxi_symbol(object, room, MOST_NAMED) && !nicxi_taken_name(object, room, MOST_NAMED))
        snprintf(room, MOST_NAMED, "%s", kind);
    return room;
}

/* --- waiting --- */

static void wait_at(struct thread *self, bool is_lock, const char *call, const void *object, const void *at)
{
    struct posix_thread *posix = &nicxi_posix[nicxi_number(self)];
    nicxi_program_begins();
    posix->object = object;
    posix->call = call;
    posix->at = at;
    posix->caller = nicxi_called_from();
    posix->is_lock = is_lock;
}

void nicxi_block(struct thread *self, bool (*condition)(void *), void *argument, const char *call, const void *object,
                 const void *at)
{
    wait_at(self, false, call, object, at);
    nicxi_call_until(condition, argument, false, call, object);
}

void nicxi_block_lock(struct thread *self, bool (*condition)(void *), void *argument, const char *call,
                      const void *object, const void *at)
{
    wait_at(self, true, call, object, at);
    nicxi_call_until(condition, argument, false, call, object);
}

/* A timed wait times out only after another actor has run, or if none can. Otherwise a loop of timed waits would never
   end. */
struct timed {
    bool (*condition)(void *);
    void *argument;
    struct thread *self;
};

static bool holds_or_is_late(void *argument)
{
    const struct timed *timed = argument;
    return timed->condition(timed->argument) || nicxi_others_acted(timed->self);
}

bool nicxi_block_timed(struct thread *self, bool (*condition)(void *), void *argument, const char *call,
                       const void *object, const void *at)
{
    struct timed timed = {condition, argument, self};
    wait_at(self, false, call, object, at);
    nicxi_call_until(holds_or_is_late, &timed, true, call, object);
    return condition(argument);
}

/* --- held objects --- */

void nicxi_hold(struct thread *self, const void *object, const void *at)
{
    struct posix_thread *posix = &nicxi_posix[nicxi_number(self)];
    if (posix->locks < MOST_HELD)
        posix->held[posix->locks] = (struct held){object, at, nicxi_called_from()};
    posix->locks++;
}

void nicxi_drop(struct thread *self, const void *object)
{
    struct posix_thread *posix = &nicxi_posix[nicxi_number(self)];
    unsigned kept = posix->locks < MOST_HELD ? posix->locks : MOST_HELD, k = kept;
    while (k > 0 && posix->held[k - 1].object != object)
        k--;
    posix->locks -= k > 0 || posix->locks > MOST_HELD;
    for (; k > 0 && k < kept; k++)
        posix->held[k - 1] = posix->held[k];
}

/* Returns the thread that holds an object, and stores where that thread took it. Null if no holder is known. */
static const struct thread *holder_of(const void *object, struct held *held)
{
    for (unsigned k = 0; k < MOST_THREADS; k++) {
        const struct posix_thread *posix = &nicxi_posix[k];
        for (unsigned n = 0; n < posix->locks && n < MOST_HELD; n++)
            if (posix->held[n].object == object) {
                *held = posix->held[n];
                return &nicxi.threads[k];
            }
    }
    return NULL;
}

static bool is_stuck(const struct thread *thread)
{
    return thread->state == UNTIL && nicxi_posix[nicxi_number(thread)].call != NULL;
}

/* Fails with "up waits for second at driver.c:31, held by down since driver.c:40", followed by what down waits for. */
static void tell_chain(const struct thread *thread)
{
    char words[sizeof nicxi.result.words], object[MOST_NAMED], where[MOST_NAMED], since[MOST_NAMED];
    const struct thread *first = thread;
    struct held held = {NULL, NULL, NULL};
    int length = 0;
    words[0] = 0;
    do {
        const struct posix_thread *posix = &nicxi_posix[nicxi_number(thread)];
        const struct thread *holder = holder_of(posix->object, &held);
        if (length < 0 || (size_t)length + 1 >= sizeof words)
            break;
        length += snprintf(words + length, sizeof words - (size_t)length, "%s%s waits for %s at %s", length ? "; " : "",
                           thread->name, nicxi_name(posix->object, "a lock", object),
                           nicxi_line_by(posix->at, posix->caller, where));
        if (holder && (size_t)length < sizeof words)
            length += snprintf(words + length, sizeof words - (size_t)length, ", held by %s since %s", holder->name,
                               nicxi_line_by(held.at, held.caller, since));
        thread = holder;
    } while (thread && thread != first && is_stuck(thread) && nicxi_posix[nicxi_number(thread)].is_lock);
    nicxi_failed(NICX_DEADLOCK, "%s", words);
}

static bool holds_any(const struct thread *thread)
{
    return nicxi_posix[nicxi_number(thread)].locks != 0;
}

static bool tell_wait(const struct thread *thread, bool for_lock)
{
    char object[MOST_NAMED], where[MOST_NAMED], vain[2 * MOST_NAMED];
    const struct posix_thread *posix = &nicxi_posix[nicxi_number(thread)];
    if (!is_stuck(thread) || (for_lock && !posix->is_lock))
        return false;
    if (posix->is_lock)
        tell_chain(thread);
    else
        nicxi_failed(NICX_DEADLOCK, "%s waits in %s for %s at %s, and no actor can act%s", thread->name, posix->call,
                     nicxi_name(posix->object, "an object", object), nicxi_line_by(posix->at, posix->caller, where),
                     nicxi_vain_words(posix, vain));
    return true;
}

/* --- called by the engine --- */

static void back(void)
{
    memset(nicxi_posix, 0, sizeof nicxi_posix);
    nicxi_state_back();
}

/* Adds the data that the calls keep for each thread, and for callers outside of threads. */
static void posix_part(struct checkpoint *it)
{
    nicxi_part(it, nicxi_posix, nicxi.tasks * sizeof *nicxi_posix);
    nicxi_part(it, nicxi_posix + NICX_TASKS, nicxi.handlers * sizeof *nicxi_posix);
    nicxi_part(it, nicxi_posix + OUTSIDE, sizeof *nicxi_posix);
}

static void part(struct checkpoint *it)
{
    posix_part(it);
    nicxi_state_part(it);
    nicxi_callers_part(it);
    nicxi_time_part(it);
    nicxi_c11_part(it);
    if (nicxi_races)
        nicxi_race_part(it);
    if (nicxi_program_part)
        nicxi_program_part(it);
}

static bool is_known(void)
{
    return nicxi_taken_is_open() && nicxi_stays_inside();
}

static void ended(struct thread *thread)
{
    char object[MOST_NAMED], where[MOST_NAMED];
    struct posix_thread *posix = &nicxi_posix[nicxi_number(thread)];
    if (posix->locks)
        nicxi_failed(NICX_MISUSE, "%s ends while it holds %s, taken at %s", thread->name,
                     nicxi_name(posix->held[0].object, "a lock", object),
                     nicxi_line_by(posix->held[0].at, posix->held[0].caller, where));
    posix->is_done = true;
    if (thread->is_made) /* no thread joins a scenario's task: its stores may still be pending */
        nicxi_race_release(posix);
    nicxi_changed_memory();
}

static bool assembly(char *room, size_t size)
{
    char line[MOST_NAMED];
    const void *where;
    const char *name = nicxi_find_assembly(&where);
    if (name)
        snprintf(room, size, "%s at %s", name, nicxi_line(where, line));
    return name != NULL;
}

static const void *function_of(const struct thread *thread)
{
    return nicxi_posix[nicxi_number(thread)].function;
}

static const char *beside(const struct step *step)
{
    return nicxi_wakes_nobody(step->call, (const void *)(uintptr_t)step->bus) ? ", while nothing waited" : "";
}

static const struct nicxi_form form = {
    .open = nicxi_state_open,
    .keep = nicxi_state_keep,
    .back = back,
    .is_known = is_known,
    .part = part,
    .begun = nicxi_name_made,
    .close = nicxi_state_close,
    .goes = nicxi_state_goes,
    .holds_any = holds_any,
    .tell_wait = tell_wait,
    .ended = ended,
    .function_of = function_of,
    .assembly = assembly,
    .beside = beside,
    .name = nicxi_taken_name,
    .called_from = nicxi_called_from,
};

/* The linker's options name this function, so it is linked whatever the driver calls. */
void nicxi_threads_form(void) __attribute__((constructor));
void nicxi_threads_form(void)
{
    nicxi_form = &form;
}
