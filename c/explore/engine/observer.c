/* Implements the functions declared in ../observer.h. */
#include "../observer.h"

#include <stdarg.h>
#include <stdio.h>
#include <string.h>

#include "engine.h"
#include "left.h"
#include "names.h"
#include "parts.h"
#include "places.h"
#include "stored.h"

void nicxo_observe(const nicxo_observer *observer)
{
    nicxi.observer = observer;
}

/* Returns the thread that itself took the step, or NICXO_NO_THREAD for a chosen value, a store that reaches memory, or
   an older load. */
static uint8_t thread_of(uint16_t actor)
{
    if (actor == NOBODY || nicxi_is_value(actor) || nicxi.actors[actor].kind != BY_THREAD)
        return NICXO_NO_THREAD;
    return (uint8_t)nicxi.actors[actor].of;
}

void nicxi_observed(uint16_t actor, const struct step *step)
{
    const nicxo_step seen = {
        .kind = step->is_overtaken ? STEP_LOCAL : step->kind,
        .status = step->status,
        .vf = step->vf,
        .is_outside = actor == NOBODY,
        .is_by_pointer = step->is_published,
        .thread = thread_of(actor),
        .of = step->of,
        .address = step->address,
        .word = step->word,
        .bus = step->bus,
        .length = step->length,
        .outcome = step->outcome,
    };
    nicxi.observer->see(&seen);
}

/* --- queries --- */

unsigned nicxo_thread(void)
{
    return nicxi.self ? (unsigned)(nicxi.self - nicxi.threads) : (unsigned)NICXO_NO_THREAD;
}

const char *nicxo_thread_name(unsigned thread)
{
    return nicxi.threads[thread].name;
}

bool nicxo_is_over(void)
{
    return nicxi_is_left();
}

uint32_t nicxo_peek(uint32_t address)
{
    return nicxi_peek(address);
}

const char *nicxo_register(uint32_t address, char room[NICXO_NAME])
{
    return nicxi_register(address, room);
}

uint32_t nicxo_first_address(uint32_t address, bool *is_low)
{
    return nicxi_first_address(address, is_low);
}

/* A pointer store reaches the device at a later call, so its own line is looked up, not that call's. */
const char *nicxo_place(const nicxo_step *step, char room[NICXO_PLACE])
{
    char where[MOST_PLACE];
    if (step->is_by_pointer)
        return nicxi_stored_at(nicxi.self, step->bus, room);
    snprintf(room, NICXO_PLACE, "%s%.140s", *nicxi_place_here(where) ? " at " : "", where);
    return room;
}

/* --- verdicts --- */

void nicxo_fail(uint8_t outcome, const char *form, ...)
{
    char words[sizeof nicxi.result.words];
    va_list list;
    va_start(list, form);
    vsnprintf(words, sizeof words, form, list);
    va_end(list);
    nicxi_failed(outcome, "%s", words);
}

uint8_t nicxo_outcome(void)
{
    return nicxi.result.outcome;
}

void nicxo_add_words(const char *form, ...)
{
    size_t used = strlen(nicxi.result.words);
    va_list list;
    va_start(list, form);
    vsnprintf(nicxi.result.words + used, sizeof nicxi.result.words - used, form, list);
    va_end(list);
}

void nicxo_put_words_first(const char *form, ...)
{
    char words[sizeof nicxi.result.words];
    va_list list;
    memcpy(words, nicxi.result.words, sizeof words);
    va_start(list, form);
    vsnprintf(nicxi.result.words, sizeof nicxi.result.words, form, list);
    va_end(list);
    nicxo_add_words("%s", words);
}

/* --- what the driver may do --- */

void nicxo_hold_back(uint16_t count)
{
    nicxi.frame_count = (uint16_t)(nicxi.frame_count - count);
}

uint16_t nicxo_let_come(uint16_t count)
{
    return nicxi.frame_count = (uint16_t)(nicxi.frame_count + count);
}

void nicxo_has_pointers(nicxo_bus_of *bus_of)
{
    nicxi.bus_of = bus_of;
    nicxi.is_changed = true;
}

void nicxo_publish(void)
{
    if (nicxi.observer && nicxi.observer->publish && nicxi.phase != ENDING && !nicxi_is_left())
        nicxi.observer->publish();
}

void nicxo_gives(const void *object)
{
    if (nicxi_races)
        nicxi_races->gives(object);
}

void nicxo_takes(const void *object)
{
    if (nicxi_races)
        nicxi_races->takes(object);
}

bool nicxo_sees_accesses(void)
{
    return nicxi_races && !nicxi_races->unseen;
}

const char *nicxo_unseen(void)
{
    return nicxi_races ? nicxi_races->unseen : NULL;
}

/* --- before nicx_main --- */

void nicxo_set_words(const nicxo_words *words)
{
    if (words->options)
        nicxi_form_options = words->options;
    if (words->for_threads)
        nicxi_for_threads = words->for_threads;
}

bool nicxo_is_foreign(void)
{
    return nicxi_to_be_seen != NULL;
}

const char *nicxo_to_be_seen(void)
{
    return nicxi_to_be_seen;
}
