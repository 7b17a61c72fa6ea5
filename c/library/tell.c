#define _POSIX_C_SOURCE 200809L
#include "tell.h"

#include <inttypes.h>
#include <stdarg.h>
#include <stdio.h>
#include <stdlib.h>
#include <string.h>

#include "../why/drops.h"
#include "../why/why.h"
#include "absent.inc"
#include "names.h"
#include "reply.h"

/* MOST_KINDS: how many kinds of events are counted for a controller. After that, all events count as "others". */
enum { MOST_KINDS = 64, NAME = 96, TEXT = 1024 };

/* A kind of event that is reported once and only counted after that. */
struct kind {
    struct kind *next;
    char name[NAME];
    uint64_t count, printed; /* number of events so far, and at the last printed line */
};

struct teller {
    struct teller *next;
    void *device;
    unsigned number; /* the controller's number in the process, counted from 1 */
    unsigned count;
    struct kind *kinds;
};

static struct teller *tellers;
static unsigned controllers;

bool nicl_is_telling(void)
{
    static int asked = -1;
    if (asked < 0) {
        const char *word = getenv("NIC82599_TELL");
        asked = word && *word && strcmp(word, "0") != 0;
    }
    return asked;
}

static struct teller *teller_of(const nic *n)
{
    struct teller *it = tellers;
    while (it && it->device != n->device)
        it = it->next;
    return it;
}

/* --- lines --- */

static void say(const struct teller *it, const char *format, ...) __attribute__((format(printf, 2, 3)));

static void say(const struct teller *it, const char *format, ...)
{
    char line[2 * TEXT];
    va_list list;
    int used = it->number > 1 ? snprintf(line, sizeof line, "nic82599, controller %u: ", it->number)
                              : snprintf(line, sizeof line, "nic82599: ");
    va_start(list, format);
    vsnprintf(line + used, sizeof line - (size_t)used, format, list);
    va_end(list);
    fprintf(stderr, "%s\n", line); /* (a single call, because the program may write lines between two calls) */
}

static bool is_round(uint64_t count)
{
    while (count >= 10 && count % 10 == 0)
        count /= 10;
    return count == 1;
}

/* Counts an event of a kind. Returns the kind if this is its first event; null if it was already reported, or there is
   no memory. */
static struct kind *first_of(struct teller *it, const char *name)
{
    struct kind **at = &it->kinds;
    name = it->count < MOST_KINDS ? name : "others";
    while (*at && strcmp((*at)->name, name) != 0)
        at = &(*at)->next;
    if (!*at) {
        *at = calloc(1, sizeof **at);
        if (!*at)
            return NULL;
        snprintf((*at)->name, NAME, "%s", name);
        it->count++;
    }
    struct kind *kind = *at;
    kind->count++;
    if (!is_round(kind->count))
        return NULL;
    kind->printed = kind->count;
    if (kind->count == 1)
        return kind;
    say(it, "%s: %" PRIu64 " so far", kind->name, kind->count);
    return NULL;
}

/* --- creation and end --- */

void nicl_tell_begin(const nic *n)
{
    struct teller *it = nicl_is_telling() ? calloc(1, sizeof *it) : NULL;
    if (!it)
        return;
    it->device = n->device;
    it->number = ++controllers;
    it->next = tellers;
    tellers = it;
}

static void finish(struct teller *it)
{
    while (it->kinds) {
        struct kind *kind = it->kinds;
        if (kind->count > kind->printed)
            say(it, "%s: %" PRIu64 " in all", kind->name, kind->count);
        it->kinds = kind->next;
        free(kind);
    }
    free(it);
}

void nicl_tell_end(const nic *n)
{
    struct teller **at = &tellers, *it;
    while (*at && (*at)->device != n->device)
        at = &(*at)->next;
    it = *at;
    if (!it)
        return;
    *at = it->next;
    finish(it);
}

void nicl_tell_all_ends(void)
{
    while (tellers) {
        struct teller *next = tellers->next;
        finish(tellers);
        tellers = next;
    }
}

void nicl_tell_forked(void)
{
    for (const struct teller *it = tellers; it; it = it->next)
        for (struct kind *kind = it->kinds; kind; kind = kind->next)
            kind->printed = kind->count;
}

/* --- stray accesses --- */

static const struct absent *absent_at(uint32_t address)
{
    for (size_t k = 0; k < sizeof absent / sizeof *absent; k++)
        if (address >= absent[k].first && address <= absent[k].last &&
            !((address - absent[k].first) % absent[k].stride))
            return &absent[k];
    return NULL;
}

/* An entry for several registers with one name has an index; an entry that combines several names has none. */
static void say_absent(const struct teller *it, const struct absent *found, uint32_t address, const char *line)
{
    char index[16] = "";
    if (found->last > found->first && !strpbrk(found->name, " .,"))
        snprintf(index, sizeof index, "[%" PRIu32 "]", (address - found->first) / found->stride);
    say(it, "stray: %s: this is %s%s, which the bench doesn't model: %s", line, found->name, index, found->what);
}

void nicl_tell_stray(const nic *n, uint32_t address, const char *line)
{
    struct teller *it = teller_of(n);
    const struct absent *found = absent_at(address);
    char name[NAME];
    if (found)
        snprintf(name, sizeof name, "stray accesses to %s", found->name);
    else
        snprintf(name, sizeof name, "stray accesses to 0x%05" PRIx32, address);
    if (!it || !first_of(it, name))
        return;
    if (found)
        say_absent(it, found, address, line);
    else
        say(it, "stray: %s: no register is at this address", line);
}

void nicl_tell_vf_stray(const nic *n, uint8_t vf, uint32_t offset, const char *line)
{
    struct teller *it = teller_of(n);
    char name[NAME], room[NICL_NAME];
    const char *known = nicl_offset(offset, room);
    if (known)
        snprintf(name, sizeof name, "stray accesses by virtual function %u", vf);
    else
        snprintf(name, sizeof name, "stray accesses by virtual functions to offset 0x%04" PRIx32, offset);
    if (!it || !first_of(it, name))
        return;
    if (known)
        say(it, "stray: %s: %s: there is no virtual function %u, or GCR_EXT.VT_Mode has no pool for it", line, known,
            vf);
    else
        say(it, "stray: %s: no virtual function register is at this offset", line);
}

/* --- drops and faults --- */

/* Joins several lines of reasons into one. */
static void join(char *text)
{
    size_t length = strlen(text);
    if (length && text[length - 1] == '\n')
        text[length - 1] = 0;
    for (char *c = text; *c; c++)
        if (*c == '\n')
            *c = ';';
}

static void tell_drop(nic *n, const nic_outcome *outcome, const uint8_t *frame)
{
    struct teller *it = teller_of(n);
    char name[NAME], text[TEXT];
    unsigned kind = nicl_drop_kind(outcome->why, frame);
    const char *cast = kind == NICL_TO_ALL ? " of broadcast" : kind == NICL_TO_MANY ? " of multicast" : "";
    snprintf(name, sizeof name, "frames dropped (%s%s)", nic_why_name(outcome->why), cast);
    if (!it || !first_of(it, name))
        return;
    nicl_why_drop(n, kind, 1, text, sizeof text);
    join(text);
    say(it, "%s", text);
}

static void tell_fault(nic *n, const nic_outcome *outcome, bool transmit)
{
    struct teller *it = teller_of(n);
    char name[NAME], text[TEXT], reply[NAME];
    snprintf(name, sizeof name, "faults in %s %u (%s)", transmit ? "tx" : "rx", outcome->queue,
             nic_fault_name(outcome->why));
    if (!it || !first_of(it, name))
        return;
    nicl_why_fault(n, outcome, transmit, text, sizeof text);
    join(text);
    nicl_reply(reply, sizeof reply, NIC_FAULT, outcome);
    say(it, "%s: %s: %s%s", transmit ? "tx" : "rx", reply, text,
        outcome->why == NIC_FAULT_TOO_LONG ? "; it has all bytes since the last descriptor with EOP" : "");
}

void nicl_tell_arrival(nic *n, const nic_outcome *outcome, const uint8_t *frame)
{
    if (tellers && outcome->status == NIC_DROPPED)
        tell_drop(n, outcome, frame);
}

void nicl_tell_step(nic *n, const nic_outcome *outcome, bool transmit)
{
    if (tellers && outcome->status == NIC_FAULT)
        tell_fault(n, outcome, transmit);
    else if (tellers && outcome->status == NIC_DROPPED)
        tell_drop(n, outcome, NULL);
}
