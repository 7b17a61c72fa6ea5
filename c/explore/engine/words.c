#include "words.h"

#include <stdarg.h>
#include <stdio.h>
#include <string.h>

#include "../../library/reply.h"
#include "names.h"
#include "parts.h"
#include "symbols.h"

enum { MOST_VALUE = 24 };

const char *nicxi_calls = "nicx_";
const char *nicxi_condition = "a condition of nicx_wait_until";

const char *nicxi_why(const char *form, ...)
{
    static char why[4096];
    char words[sizeof why];
    va_list list;
    va_start(list, form);
    vsnprintf(words, sizeof words, form, list);
    va_end(list);
    return memcpy(why, words, sizeof why);
}

const char *nicxi_reply(const struct step *step, char room[MOST_WORDS])
{
    nicl_reply(room, MOST_WORDS, step->status, &step->outcome);
    return room;
}

/* Describes a local step: a barrier with the number of stores that it flushed, a timer by its name. */
static const char *local_words(const struct step *step, char *room)
{
    static const char *const words[] = {"begins",  "a point", "waited", "waited until", "paused", "locks",
                                        "unlocks", "wmb",     "rmb",    "mb",           "arms",   "disarms"};
    const char *first = step->word < sizeof words / sizeof *words ? words[step->word] : "";
    if (step->word == LOCAL_ARM || step->word == LOCAL_DISARM)
        snprintf(room, MOST_WORDS, "%s %s", first, nicxi.threads[step->of].name);
    else if ((step->word == LOCAL_WMB || step->word == LOCAL_MB) && step->length)
        snprintf(room, MOST_WORDS, "%s, %u store%s ahead of it", first, step->length, step->length > 1 ? "s" : "");
    else
        return first;
    return room;
}

/* Describes an access to lent memory. With weak memory, a store may be pending, and a load may include the thread's own
   pending stores, or be old. */
static const char *memory_words(const struct step *step, const char *stray, char *room)
{
    const char *late = step->is_overtaken        ? ", which another thread already wrote"
                       : !step->is_kept          ? ""
                       : step->kind == STEP_POKE ? ", on its way"
                                                 : ", with its own pending stores";
    int length = snprintf(room, MOST_WORDS, "%s 0x%05llx, %u bytes%s%s", step->kind == STEP_PEEK ? "peek" : "poke",
                          (unsigned long long)step->bus, step->length, stray, late);
    if (step->kind == STEP_PEEK && step->older)
        snprintf(room + length, MOST_WORDS - (size_t)length, ", as before %s",
                 step->older == 1   ? "the last change"
                 : step->older == 2 ? "the last two changes"
                                    : "the last three changes");
    return room;
}

const char *nicxi_own_name(uint64_t at, char room[MOST_WORDS])
{
    const void *object = (const void *)(uintptr_t)at;
    if (!nicxi_symbol(object, room, MOST_SYMBOL) && !(nicxi_form && nicxi_form->name(object, room, MOST_SYMBOL)))
        snprintf(room, MOST_WORDS, "0x%llx", (unsigned long long)at);
    return room;
}

/* Formats a small number in decimal, and a large one, like an address, in hexadecimal. */
static const char *value_words(uint64_t value, char room[MOST_VALUE])
{
    snprintf(room, MOST_VALUE, value < 65536 ? "%llu" : "0x%llx", (unsigned long long)value);
    return room;
}

/* "loads ready (relaxed): 1", "changes count (acq_rel): 1 to 2", "compares owner (seq_cst): 2, expected 0" */
static const char *atomic_words(const struct step *step, const char *name, char *room)
{
    static const char *const verbs[] = {"loads", "stores", "changes", "compares"};
    static const char *const orders[] = {"relaxed", "consume", "acquire", "release", "acq_rel", "seq_cst"};
    char value[MOST_VALUE], other[MOST_VALUE];
    bool has_other = step->operation == CHANGES || step->operation == COMPARES;
    int length = snprintf(room, MOST_WORDS, "%s %.60s (%s)", verbs[step->operation], name,
                          step->order < sizeof orders / sizeof *orders ? orders[step->order] : "an unknown order");
    if (step->length <= sizeof step->value)
        snprintf(room + length, MOST_WORDS - (size_t)length, ": %s%s%s%s", value_words(step->value, value),
                 !has_other                   ? ""
                 : step->operation == CHANGES ? " to "
                                              : ", expected ",
                 has_other ? value_words(step->other, other) : "", step->is_kept ? ", on its way" : "");
    return room;
}

/* Describes an access to the driver's own memory, or a call on a library's object. */
static const char *own_words(const struct step *step, char *room)
{
    static const char *const words[] = {"reads", "writes"};
    char name[MOST_WORDS];
    if (step->word < LOCAL_CALL)
        return local_words(step, room);
    nicxi_own_name(step->bus, name);
    if (step->word == LOCAL_ATOMIC)
        return atomic_words(step, name, room);
    if (step->word != LOCAL_CALL)
        snprintf(room, MOST_WORDS, "%s %.60s, %u byte%s", words[step->word - LOCAL_LOAD], name, step->length,
                 nicxi_s(step->length));
    else
        snprintf(room, MOST_WORDS, "%.40s%s%.60s%s", step->call, step->bus ? " " : "", step->bus ? name : "",
                 nicxi_form ? nicxi_form->beside(step) : "");
    return room;
}

/* Describes a store that reaches memory, lent or own. */
static const char *landing_words(const struct step *step, char *room)
{
    char name[MOST_WORDS];
    if (step->is_own)
        snprintf(room, MOST_WORDS, "%.60s, %u byte%s reach%s memory", nicxi_own_name(step->bus, name), step->length,
                 nicxi_s(step->length), step->length == 1 ? "es" : "");
    else
        snprintf(room, MOST_WORDS, "0x%05llx, %u bytes reach memory", (unsigned long long)step->bus, step->length);
    return room;
}

/* Describes a register access, with the register's name. */
static const char *access_words(const struct step *step, const char *stray, char *room)
{
    char name[MOST_NAME];
    unsigned vf = step->vf, word = step->word;
    switch (step->kind) {
    case STEP_READ:
        snprintf(room, MOST_WORDS, "r %s = 0x%08x%s", nicxi_register(step->address, name), word, stray);
        break;
    case STEP_WRITE:
        snprintf(room, MOST_WORDS, "w %s 0x%08x%s", nicxi_register(step->address, name), word, stray);
        break;
    case STEP_VF_READ:
        snprintf(room, MOST_WORDS, "vr %u %s = 0x%08x%s", vf, nicxi_offset(step->address, name), word, stray);
        break;
    default: snprintf(room, MOST_WORDS, "vw %u %s 0x%08x%s", vf, nicxi_offset(step->address, name), word, stray); break;
    }
    return room;
}

const char *nicxi_words(const struct step *step, char room[MOST_WORDS])
{
    const char *stray = step->status == NIC_STRAY ? " (stray)" : step->status == NIC_NOT_LENT ? " (not lent)" : "";
    switch (step->kind) {
    case STEP_LOCAL: return own_words(step, room);
    case STEP_START: return "starts";
    case STEP_READ:
    case STEP_WRITE:
    case STEP_VF_READ:
    case STEP_VF_WRITE: return access_words(step, stray, room);
    case STEP_PEEK:
    case STEP_POKE: return memory_words(step, stray, room);
    case STEP_STORE: return landing_words(step, room);
    case STEP_VALUE:
        snprintf(room, MOST_WORDS, "of %u, %s", step->length,
                 step->of == NOBODY ? "in begin" : nicxi.threads[step->of].name);
        return room;
    case STEP_LEND: snprintf(room, MOST_WORDS, "lend %u%s", step->address, stray); return room;
    case STEP_TAKE: snprintf(room, MOST_WORDS, "unlend %u%s", step->address, stray); return room;
    case STEP_LINK: return step->word ? "link up" : "link down";
    default: return nicxi_reply(step, room);
    }
}

const char *nicxi_slot_words(uint64_t bus, char room[MOST_WORDS])
{
    room[0] = 0;
    for (uint32_t k = 0; k < 2u * nicxi.scenario->queues && !*room; k++) {
        struct nicl_ring ring = nicl_ring_of(&nicxi.device, k & 1, k / 2);
        if (bus - ring.base < (uint64_t)NIC_DESC_BYTES * ring.slots)
            snprintf(room, MOST_WORDS, ", queue %u's %s slot %u", (unsigned)(k / 2), k & 1 ? "transmit" : "receive",
                     (unsigned)((bus - ring.base) / NIC_DESC_BYTES));
    }
    return room;
}

void nicxi_plain(const char *words, char *room, unsigned size)
{
    unsigned at = 0;
    for (; words[at] && at + 1 < size; at++)
        room[at] = words[at] < ' ' || words[at] > '~' ? '?' : words[at];
    room[at] = 0;
}

void nicxi_one_line(const char *words, char *room, unsigned size)
{
    unsigned at = 0;
    for (; *words && at + 2 < size; words++) {
        bool is_between = *words == '\n' && at && words[1] && words[1] != '\n';
        if (is_between)
            room[at++] = ';';
        if (is_between || *words != '\n')
            room[at++] = is_between ? ' ' : *words;
    }
    room[at] = 0;
}

const char *nicxi_outcome_name(uint8_t outcome)
{
    static const char *const names[] = {"fine",   "end",   "always", "deadlock", "endless", "fault",
                                        "memory", "check", "misuse", "crash",    "hang",    "race"};
    return outcome < sizeof names / sizeof *names ? names[outcome] : "unknown";
}
