/* Freed memory isn't handed out again for a while, so that an access to it is noticed even after other allocations. For
   each 16 bytes of the piece, one byte says whether the driver may access them. */
#define _GNU_SOURCE
#include "taken.h"

#include <errno.h>
#include <stdarg.h>
#include <stdio.h>
#include <stdlib.h>
#include <string.h>

#include "../engine/left.h"
#include "../engine/symbols.h"
#include "../engine/words.h"
#include "form.h"
#include "races.h"

/* The piece's own 16-byte header, with data for reports. */
struct head {
    uint32_t class, size;
    const void *call; /* where it was allocated */
};

/* A byte of `units` says how many leading bytes of its unit belong to the driver, or that they were freed, and whether
   an allocation begins in the unit. */
enum { BEGINS = 0x40, FREED = 0x20, OUTSIDE_TASKS = 0xFF };

#define UNITS (PIECE_ROOM / UNIT)

uintptr_t nicxi_taken_from = (uintptr_t)1 << (8 * sizeof(uintptr_t) - 1);

static struct piece *piece;
static uint8_t *units;
static char *kept_piece;
static uint8_t *kept_units;
static size_t kept_size;

/* The last freed blocks, oldest first. A block isn't handed out again while it is in this list. */
enum { MOST_FREED = 4096 };
#define MOST_FREED_BYTES ((size_t)8 << 20)

struct freed {
    char *at;
    const void *call, *caller;
    uint8_t who;
};

struct freed_list {
    struct freed list[MOST_FREED];
    unsigned first, count;
    size_t bytes;
};

static struct freed_list freed, kept_freed;

/* Set under the address sanitizer, which keeps its own malloc so that it sees wrong accesses. Memory that a schedule
   doesn't free then leaks. */
void __asan_init(void) __attribute__((weak));

static bool is_here(void)
{
    return piece && nicxi_is_ours();
}

/* --- permitted accesses --- */

static struct head *head_of(const void *at)
{
    return (struct head *)(void *)((uintptr_t)at - HEAD);
}

static size_t unit_of(const void *at)
{
    return ((uintptr_t)at - nicxi_taken_from) / UNIT;
}

static char *at_unit(size_t unit)
{
    return (char *)nicxi_taken_from + unit * UNIT;
}

static void mark_taken(const char *at, size_t size)
{
    size_t first = unit_of(at), whole = size / UNIT, all = piece_size(at) / UNIT;
    memset(units + first, UNIT, whole);
    memset(units + first + whole, 0, all - whole);
    if (size % UNIT)
        units[first + whole] = (uint8_t)(size % UNIT);
    units[first] |= BEGINS;
}

static void mark_freed(const char *at, size_t size)
{
    size_t first = unit_of(at);
    memset(units + first, FREED, size ? (size + UNIT - 1) / UNIT : 1);
    units[first] |= BEGINS;
}

static bool is_begin(const void *at)
{
    return !((uintptr_t)at % UNIT) && units[unit_of(at)] & BEGINS;
}

/* Returns the first unit of the access that doesn't belong to the driver, or UNITS. */
static size_t first_wrong(uint64_t at, size_t length)
{
    uint64_t from = at - nicxi_taken_from, to = from + length;
    for (uint64_t unit = from / UNIT; unit <= (to - 1) / UNIT; unit++) {
        uint64_t wanted = to - unit * UNIT < UNIT ? to - unit * UNIT : UNIT;
        uint64_t there = unit < UNITS ? units[unit] & ~(unsigned)BEGINS : 0;
        if (there == FREED || wanted > there)
            return unit;
    }
    return UNITS;
}

/* --- reports --- */

/* Returns the last allocation that begins at a unit or before it, or null. */
static char *begin_before(size_t unit)
{
    while (unit > FIRST / UNIT && !(units[unit] & BEGINS))
        unit--;
    return units[unit] & BEGINS ? at_unit(unit) : NULL;
}

/* Returns the allocation closest to an address: the one before it, or one that begins right after it. */
static char *nearest(uint64_t at, size_t unit)
{
    char *before = begin_before(unit), *after = unit + 1 < UNITS && units[unit + 1] & BEGINS ? at_unit(unit + 1) : NULL;
    if (!before || !after)
        return before ? before : after;
    return at - ((uintptr_t)before + head_of(before)->size) <= (uintptr_t)after - at ? before : after;
}

bool nicxi_taken_name(const void *object, char *room, size_t size)
{
    char where[MOST_NAMED];
    struct source_line line;
    const char *begin = nicxi_is_taken((uintptr_t)object) ? begin_before(unit_of(object)) : NULL;
    if (!begin || !nicxi_lines(head_of(begin)->call, &line, 1))
        return false;
    size_t offset = (size_t)((const char *)object - begin);
    if (offset)
        snprintf(room, size, "malloc(%.60s)+0x%zx", nicxi_line(head_of(begin)->call, where), offset);
    else
        snprintf(room, size, "malloc(%.60s)", nicxi_line(head_of(begin)->call, where));
    return true;
}

/* Returns a name for code outside of tasks. */
static const char *name_outside(void)
{
    if (nicxi.asker)
        return nicxi.asker;
    return nicxi.phase == BRINGING_UP ? "bring_up" : nicxi.phase == BEGINNING ? "begin" : "end";
}

static const char *name_of_self(void)
{
    if (nicxi_alone)
        return nicxi_alone->name;
    return nicxi_is_in_thread() ? nicxi.self->name : name_outside();
}

/* Returns the last free of an allocation, or null if it is no longer known. */
static const struct freed *freed_of(const char *at)
{
    for (unsigned k = freed.count; k > 0; k--) {
        const struct freed *it = &freed.list[(freed.first + k - 1) % MOST_FREED];
        if (it->at == at)
            return it;
    }
    return NULL;
}

static const char *freer_of(const struct freed *it)
{
    return it->who == OUTSIDE_TASKS ? "the scenario" : nicxi.threads[it->who].name;
}

/* Fails the schedule. A running task doesn't continue. */
static void fail(const char *form, ...) __attribute__((format(printf, 1, 2)));
static void fail(const char *form, ...)
{
    char words[sizeof nicxi.result.words];
    va_list list;
    va_start(list, form);
    vsnprintf(words, sizeof words, form, list);
    va_end(list);
    nicxi_failed(NICX_MEMORY, "%s", words);
    nicxi_program_begins();
    nicxi_leave();
}

static bool is_over(void)
{
    return !nicxi_is_ours() || nicxi.result.outcome || nicxi_is_left();
}

/* Reports an access to freed memory: ".. freed by stop at driver.c:43". */
static void fail_freed(const char *begin, const char *what, const void *call)
{
    char here[MOST_NAMED], there[MOST_NAMED], where[MOST_NAMED];
    const struct freed *it = freed_of(begin);
    fail("use after free: %.40s at %.90s %s freed%s%.40s%s%.90s; allocated at %.50s", name_of_self(),
         nicxi_line_now(call, here), what, it ? " by " : "", it ? freer_of(it) : "", it ? " at " : "",
         it ? nicxi_line_by(it->call, it->caller, where) : "", nicxi_line(head_of(begin)->call, there));
}

static void fail_twice(const char *begin, const char *verb, const void *call)
{
    char here[MOST_NAMED], there[MOST_NAMED], where[MOST_NAMED];
    const struct freed *it = freed_of(begin);
    fail("double free: %.40s %s at %.90s memory that %.40s freed%s%.90s; allocated at %.50s", name_of_self(), verb,
         nicxi_line_now(call, here), it ? freer_of(it) : "was", it ? " at " : "",
         it ? nicxi_line_by(it->call, it->caller, where) : "", nicxi_line(head_of(begin)->call, there));
}

static void fail_outside(const char *begin, uint64_t at, size_t length, bool writes, const void *call)
{
    char here[MOST_NAMED], there[MOST_NAMED];
    uint32_t size = head_of(begin)->size;
    fail("out of bounds: %.40s at %.90s %s %zu byte%s at offset %lld of %u byte%s, allocated at %.50s", name_of_self(),
         nicxi_line_now(call, here), writes ? "writes" : "reads", length, nicxi_s(length),
         (long long)(at - (uintptr_t)begin), (unsigned)size, nicxi_s(size), nicxi_line(head_of(begin)->call, there));
}

void nicxi_judge_taken(uint64_t at, size_t length, bool writes, const void *call)
{
    size_t unit = length ? first_wrong(at, length) : UNITS;
    char what[64];
    if (unit == UNITS || is_over())
        return;
    char *begin = units[unit] & FREED ? begin_before(unit) : nearest(at, unit);
    snprintf(what, sizeof what, "%s %zu byte%s that w%s", writes ? "writes" : "reads", length, nicxi_s(length),
             length == 1 ? "as" : "ere");
    if (!begin)
        return;
    if (units[unit] & FREED)
        fail_freed(begin, what, call);
    else
        fail_outside(begin, at, length, writes, call);
}

void nicxi_judge_object(const void *object, const char *name, const void *call)
{
    char what[96];
    if (!nicxi_is_taken((uintptr_t)object) || is_over() || !(units[unit_of(object)] & FREED))
        return;
    snprintf(what, sizeof what, "calls %.40s on an object that was", name);
    fail_freed(begin_before(unit_of(object)), what, call);
}

/* Whether memory may be freed. Otherwise no allocation begins there, or it was freed before; then nothing is freed. */
static bool may_give(void *at, const char *verb, const void *call)
{
    char here[MOST_NAMED], there[MOST_NAMED];
    const char *begin = begin_before(unit_of(at));
    if (is_begin(at) && !(units[unit_of(at)] & FREED))
        return true;
    if (!begin || is_over())
        return false;
    if (is_begin(at))
        fail_twice(begin, verb, call);
    else
        fail("bad free: %.40s %s at %.90s a pointer %zu byte%s into the allocation from %.50s", name_of_self(), verb,
             nicxi_line_now(call, here), (size_t)((char *)at - begin), nicxi_s((size_t)((char *)at - begin)),
             nicxi_line(head_of(begin)->call, there));
    return false;
}

/* --- allocating and freeing --- */

static void *take_head(void *at, size_t size, const void *call)
{
    if (!at) {
        errno = ENOMEM;
        return NULL;
    }
    head_of(at)->size = (uint32_t)size;
    head_of(at)->call = call;
    mark_taken(at, size);
    nicxi_race_forget(at, piece_size(at));
    return at;
}

static void *take(size_t size, const void *call)
{
    return take_head(piece_take(piece, size ? size : 1), size, call);
}

/* Makes the oldest freed block available for allocation again. */
static void give_oldest(void)
{
    char *at = freed.list[freed.first].at;
    freed.first = (freed.first + 1) % MOST_FREED;
    freed.count--;
    freed.bytes -= piece_size(at);
    piece_give(piece, at);
}

static void give(void *at, const void *call)
{
    nicxi_race_free(at, piece_size(at), call);
    mark_freed(at, head_of(at)->size);
    if (!nicxi_is_ours()) {
        piece_give(piece, at);
        return;
    }
    while (freed.count == MOST_FREED || (freed.count && freed.bytes + piece_size(at) > MOST_FREED_BYTES))
        give_oldest();
    unsigned who = nicxi_alone            ? nicxi_number(nicxi_alone)
                   : nicxi_is_in_thread() ? nicxi_number(nicxi.self)
                                          : OUTSIDE_TASKS;
    freed.list[(freed.first + freed.count++) % MOST_FREED] =
        (struct freed){at, call, nicxi_called_from(), (uint8_t)who};
    freed.bytes += piece_size(at);
}

void *__real_malloc(size_t size);
void *__wrap_malloc(size_t size)
{
    return is_here() ? take(size, HERE) : __real_malloc(size);
}

void __real_free(void *at);
void __wrap_free(void *at)
{
    if (!piece_has(piece, at))
        __real_free(at);
    else if (may_give(at, "frees", HERE))
        give(at, HERE);
}

void *__real_calloc(size_t count, size_t size);
void *__wrap_calloc(size_t count, size_t size)
{
    if (!is_here())
        return __real_calloc(count, size);
    if (size && count > PIECE_ROOM / size) {
        errno = ENOMEM;
        return NULL;
    }
    void *at = take(count * size, HERE);
    if (at)
        memset(at, 0, count * size);
    return at;
}

/* As in the C library, reallocating to size 0 frees. */
static void *again(void *at, size_t size, const void *call)
{
    if (!may_give(at, "reallocates", call))
        return NULL;
    if (!size) {
        give(at, call);
        return NULL;
    }
    void *moved = take(size, call);
    if (!moved)
        return NULL;
    memcpy(moved, at, head_of(at)->size < size ? head_of(at)->size : size);
    give(at, call);
    return moved;
}

void *__real_realloc(void *at, size_t size);
void *__wrap_realloc(void *at, size_t size)
{
    if (at ? !piece_has(piece, at) : !is_here())
        return __real_realloc(at, size);
    return at ? again(at, size, HERE) : take(size, HERE);
}

void *__real_reallocarray(void *at, size_t count, size_t size);
void *__wrap_reallocarray(void *at, size_t count, size_t size)
{
    if (at ? !piece_has(piece, at) : !is_here())
        return __real_reallocarray(at, count, size);
    if (size && count > PIECE_ROOM / size) {
        errno = ENOMEM;
        return NULL;
    }
    return at ? again(at, count * size, HERE) : take(count * size, HERE);
}

char *__real_strdup(const char *text);
char *__wrap_strdup(const char *text)
{
    if (!is_here())
        return __real_strdup(text);
    size_t size = strlen(text) + 1;
    nicxi_look_at_taken((uintptr_t)text, size, false, HERE);
    char *copied = take(size, HERE);
    return copied ? memcpy(copied, text, size) : NULL;
}

/* All blocks are aligned to 16 bytes. For a larger alignment, allocates that many more bytes, and places a block of the
   class of `size` in them, with its own header. When freed, it becomes an ordinary block of that class; the space
   around it is lost until the schedule ends. */
static void *aligned(size_t alignment, size_t size, const void *call)
{
    if (size > PIECE_ROOM || alignment > PIECE_ROOM)
        return NULL;
    if (alignment <= HEAD)
        return take(size, call);
    uint32_t k = piece_class(size ? size : 1);
    char *around = piece_take(piece, piece_whole(k) + alignment);
    if (!around)
        return NULL;
    memset(units + unit_of(around), 0, piece_size(around) / UNIT);
    char *inside = (char *)(((uintptr_t)around + alignment) & ~(uintptr_t)(alignment - 1));
    head_of(inside)->class = k;
    return take_head(inside, size, call);
}

int __real_posix_memalign(void **at, size_t alignment, size_t size);
int __wrap_posix_memalign(void **at, size_t alignment, size_t size)
{
    if (!is_here())
        return __real_posix_memalign(at, alignment, size);
    *at = aligned(alignment, size, HERE);
    return *at ? 0 : ENOMEM;
}

INTERCEPT_IF(is_here(), void *, aligned_alloc, (size_t alignment, size_t size), (alignment, size),
             aligned(alignment, size, HERE))

/* --- lifetime --- */

void nicxi_taken_open(void)
{
    void *room = MAP_FAILED;
    if (!__asan_init)
        room = mmap(NULL, UNITS, PROT_READ | PROT_WRITE, MAP_PRIVATE | MAP_ANONYMOUS | MAP_NORESERVE, -1, 0);
    if (room == MAP_FAILED)
        return;
    units = room;
    piece = piece_open();
    if (piece)
        nicxi_taken_from = (uintptr_t)piece;
}

/* Copies only the used entries; the list is large and mostly empty. */
static void copy_freed(struct freed_list *to, const struct freed_list *from)
{
    for (unsigned k = from->first; k < from->first + from->count; k++)
        to->list[k % MOST_FREED] = from->list[k % MOST_FREED];
    to->first = from->first;
    to->count = from->count;
    to->bytes = from->bytes;
}

void nicxi_taken_keep(void)
{
    if (!piece)
        return;
    kept_size = piece->used;
    kept_piece = malloc(kept_size);
    kept_units = malloc(kept_size / UNIT);
    if (!kept_piece || !kept_units)
        return;
    memcpy(kept_piece, piece, kept_size);
    memcpy(kept_units, units, kept_size / UNIT);
    copy_freed(&kept_freed, &freed);
}

void nicxi_taken_back(void)
{
    if (!kept_piece || !kept_units)
        return;
    memset(units + kept_size / UNIT, 0, (piece->used - kept_size) / UNIT);
    memcpy(units, kept_units, kept_size / UNIT);
    memcpy(piece, kept_piece, kept_size);
    copy_freed(&freed, &kept_freed);
}

bool nicxi_taken_is_open(void)
{
    return piece != NULL;
}

static void freed_part(struct checkpoint *it)
{
    nicxi_part(it, &freed.first, sizeof freed.first);
    nicxi_part(it, &freed.count, sizeof freed.count);
    nicxi_part(it, &freed.bytes, sizeof freed.bytes);
    for (unsigned k = freed.first; k < freed.first + freed.count; k++)
        nicxi_part(it, &freed.list[k % MOST_FREED], sizeof *freed.list);
}

void nicxi_taken_part(struct checkpoint *it)
{
    size_t now = piece->used, used = now;
    nicxi_part(it, &used, sizeof used);
    nicxi_part(it, piece, used);
    nicxi_part(it, units, used / UNIT);
    if (now > used)
        memset(units + used / UNIT, 0, (now - used) / UNIT);
    freed_part(it);
}

void nicxi_taken_close(void)
{
    free(kept_piece);
    free(kept_units);
    kept_piece = NULL;
    kept_units = NULL;
    if (piece)
        munmap(piece, PIECE_ROOM);
    if (units)
        munmap(units, UNITS);
    piece = NULL;
    units = NULL;
    freed.first = freed.count = 0;
    freed.bytes = 0;
    nicxi_taken_from = (uintptr_t)1 << (8 * sizeof(uintptr_t) - 1);
}
