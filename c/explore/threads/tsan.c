/* Replaces the sanitizer's own library: functions called by code built with -fsanitize=thread. Through them the search
   observes each memory access, and each atomic operation is a point. All tasks run on one thread of the process, so the
   operations themselves can be plain code. */
#define _GNU_SOURCE
#include <string.h>

#include "../engine/weak.h"
#include "form.h"
#include "memory.h"
#include "races.h"
#include "taken.h"

/* Whether stores of the running code may be pending. */
static inline bool is_weak_here(void)
{
    return nicxi.is_weak && nicxi_is_in_thread();
}

/* --- accesses --- */

/* If the thread has a pending atomic store to this memory, the store reaches memory before the plain access. */
static inline void access(const void *at, size_t length, unsigned how, const void *call)
{
    if ((nicxi_memory_is_point || nicxi.handlers) && nicxi_is_in_thread())
        nicxi_memory_points((uintptr_t)at, length, how, call);
    if (is_weak_here())
        nicxi_land_own((uintptr_t)at, length);
    nicxi_look_at_taken((uintptr_t)at, length, how & WRITES, call);
    nicxi_race_access((uintptr_t)at, length, how, call);
}

#define ACCESS(name, how, size)                                                                                        \
    void __tsan_##name(void *at)                                                                                       \
    {                                                                                                                  \
        access(at, size, how, HERE);                                                                                   \
    }

#define ACCESSES(kind, size)                                                                                           \
    ACCESS(kind##read##size, READS, size)                                                                              \
    ACCESS(kind##write##size, WRITES, size)

#define BOTH_WAYS(size)                                                                                                \
    ACCESS(read_write##size, WRITES, size)                                                                             \
    ACCESS(unaligned_read_write##size, WRITES, size)

ACCESSES(, 1)
ACCESSES(, 2)
ACCESSES(, 4)
ACCESSES(, 8)
ACCESSES(, 16)
ACCESSES(unaligned_, 2)
ACCESSES(unaligned_, 4)
ACCESSES(unaligned_, 8)
ACCESSES(unaligned_, 16)
ACCESSES(volatile_, 1)
ACCESSES(volatile_, 2)
ACCESSES(volatile_, 4)
ACCESSES(volatile_, 8)
ACCESSES(volatile_, 16)
ACCESSES(unaligned_volatile_, 2)
ACCESSES(unaligned_volatile_, 4)
ACCESSES(unaligned_volatile_, 8)
ACCESSES(unaligned_volatile_, 16)
BOTH_WAYS(1)
BOTH_WAYS(2)
BOTH_WAYS(4)
BOTH_WAYS(8)
BOTH_WAYS(16)

void __tsan_read_range(void *at, size_t length)
{
    access(at, length, READS, HERE);
}

void __tsan_write_range(void *at, size_t length)
{
    access(at, length, WRITES, HERE);
}

void __tsan_vptr_read(void **at)
{
    access(at, sizeof *at, READS, HERE);
}

/* Destructors write the same value again, which changes nothing. */
void __tsan_vptr_update(void **at, void *value)
{
    if (*at != value)
        access(at, sizeof *at, WRITES, HERE);
}

/* --- copies --- */

void *__real_memcpy(void *to, const void *from, size_t length);
void *__real_memmove(void *to, const void *from, size_t length);
void *__real_memset(void *to, int value, size_t length);

static void copies(void *to, const void *from, size_t length, const void *call)
{
    if (!length)
        return;
    access(from, length, READS, call);
    access(to, length, WRITES, call);
}

#define COPIES(place)                                                                                                  \
    void *place##_memcpy(void *to, const void *from, size_t length)                                                    \
    {                                                                                                                  \
        copies(to, from, length, HERE);                                                                                \
        return __real_memcpy(to, from, length);                                                                        \
    }                                                                                                                  \
    void *place##_memmove(void *to, const void *from, size_t length)                                                   \
    {                                                                                                                  \
        copies(to, from, length, HERE);                                                                                \
        return __real_memmove(to, from, length);                                                                       \
    }                                                                                                                  \
    void *place##_memset(void *to, int value, size_t length)                                                           \
    {                                                                                                                  \
        if (length)                                                                                                    \
            access(to, length, WRITES, HERE);                                                                          \
        return __real_memset(to, value, length);                                                                       \
    }

COPIES(__tsan)
/* For longer copies gcc calls the C library's functions. */
COPIES(__wrap)

/* --- atomic operations --- */

/* Other actors may run before an atomic operation. A loop that only keeps loading the same value counts as waiting. */
static void atomic_point(const struct atomic *atomic, const void *call)
{
    unsigned how = atomic->kind == DO_LOAD ? READS : WRITES;
    if (nicxi_is_in_thread())
        nicxi_atomic_point(atomic);
    nicxi_look_at_taken(atomic->at, atomic->size, how & WRITES, call);
    nicxi_race_access(atomic->at, atomic->size, how | ATOMIC, call);
}

static void atomic_done(const volatile void *at, uint64_t old, bool changed)
{
    if (!nicxi_is_in_thread())
        return;
    if (changed)
        nicxi_changed_memory();
    else
        nicxi_polled((uintptr_t)at, old);
}

/* With weak memory, a store to memory that others may see becomes pending. A sequentially consistent store doesn't, and
   it flushes the pending ones. */
static bool may_be_late(const volatile void *at, int order)
{
    return is_weak_here() && order != ALL && nicxi_race_is_shared((uintptr_t)at);
}

static bool releases(int order)
{
    return order == RELEASE || order == BOTH || order == ALL;
}

/* The point before a store. Returns whether the store is now pending. */
static bool stores_late(volatile void *at, const void *value, const struct atomic *atomic, const void *call)
{
    int slot = -1, order = atomic->order;
    if (may_be_late(at, order))
        slot = nicxi_store_point(atomic, value, releases(order));
    else if (nicxi_is_in_thread())
        nicxi_atomic_point(atomic);
    nicxi_look_at_taken(atomic->at, atomic->size, true, call);
    nicxi_race_access(atomic->at, atomic->size, WRITES | ATOMIC, call);
    if (slot >= 0) {
        nicxi_race_store_late(slot, order);
        nicxi_changed_memory();
    } else if (is_weak_here() && order == ALL) {
        nicxi_drain();
    }
    return slot >= 0;
}

/* An exchange isn't delayed. It happens after pending stores to its address; on x86, or if it releases, after all
   pending stores. */
static void before_exchange(volatile void *at, unsigned size, int order)
{
    if (is_weak_here() && (nicxi.is_tso || releases(order)))
        nicxi_drain();
    else if (is_weak_here())
        nicxi_land_own((uintptr_t)at, size);
}

#define ATOMIC_AT(kind, order, operand, expected)                                                                      \
    (&(struct atomic){(uintptr_t)at, sizeof *at, kind, order, (uint64_t)(operand), (uint64_t)(expected)})

#define ATOMIC_EXCHANGE(bits, type, name, kind, operation)                                                             \
    type __tsan_atomic##bits##_##name(volatile type *at, type value, int order)                                        \
    {                                                                                                                  \
        atomic_point(ATOMIC_AT(kind, order, value, 0), HERE);                                                          \
        before_exchange(at, sizeof *at, order);                                                                        \
        type old = *at, new = (type)(operation);                                                                       \
        nicxi_race_exchange((uintptr_t)at, order);                                                                     \
        *at = new;                                                                                                     \
        atomic_done(at, (uint64_t)old, old != new);                                                                    \
        return old;                                                                                                    \
    }

/* If the value isn't the expected one, this is a load. */
#define ATOMIC_COMPARE(bits, type, name)                                                                               \
    int __tsan_atomic##bits##_compare_exchange_##name(volatile type *at, type *expected, type value, int order,        \
                                                      int otherwise)                                                   \
    {                                                                                                                  \
        atomic_point(ATOMIC_AT(DO_COMPARE, order, value, *expected), HERE);                                            \
        before_exchange(at, sizeof *at, order);                                                                        \
        type old = *at;                                                                                                \
        bool is_equal = old == *expected;                                                                              \
        if (is_equal) {                                                                                                \
            nicxi_race_exchange((uintptr_t)at, order);                                                                 \
            *at = value;                                                                                               \
        } else {                                                                                                       \
            nicxi_race_load((uintptr_t)at, otherwise);                                                                 \
            *expected = old;                                                                                           \
        }                                                                                                              \
        atomic_done(at, (uint64_t)old, is_equal &&old != value);                                                       \
        return is_equal;                                                                                               \
    }

#define ATOMIC_OF(bits, type)                                                                                          \
    type __tsan_atomic##bits##_load(const volatile type *at, int order)                                                \
    {                                                                                                                  \
        atomic_point(ATOMIC_AT(DO_LOAD, order, 0, 0), HERE);                                                           \
        nicxi_race_load((uintptr_t)at, order);                                                                         \
        type value = *at;                                                                                              \
        if (is_weak_here())                                                                                            \
            nicxi_load_own((uintptr_t)at, &value, sizeof value);                                                       \
        atomic_done(at, (uint64_t)value, false);                                                                       \
        return value;                                                                                                  \
    }                                                                                                                  \
    void __tsan_atomic##bits##_store(volatile type *at, type value, int order)                                         \
    {                                                                                                                  \
        if (stores_late(at, &value, ATOMIC_AT(DO_STORE, order, value, 0), HERE))                                       \
            return;                                                                                                    \
        nicxi_race_store((uintptr_t)at, order);                                                                        \
        bool changed = *at != value;                                                                                   \
        *at = value;                                                                                                   \
        atomic_done(at, (uint64_t)value, changed);                                                                     \
    }                                                                                                                  \
    ATOMIC_EXCHANGE(bits, type, exchange, DO_EXCHANGE, value)                                                          \
    ATOMIC_EXCHANGE(bits, type, fetch_add, DO_ADD, old + value)                                                        \
    ATOMIC_EXCHANGE(bits, type, fetch_sub, DO_SUB, old - value)                                                        \
    ATOMIC_EXCHANGE(bits, type, fetch_and, DO_AND, old &value)                                                         \
    ATOMIC_EXCHANGE(bits, type, fetch_or, DO_OR, old | value)                                                          \
    ATOMIC_EXCHANGE(bits, type, fetch_xor, DO_XOR, old ^ value)                                                        \
    ATOMIC_EXCHANGE(bits, type, fetch_nand, DO_NAND, ~(old & value))                                                   \
    ATOMIC_COMPARE(bits, type, strong)                                                                                 \
    ATOMIC_COMPARE(bits, type, weak)                                                                                   \
    type __tsan_atomic##bits##_compare_exchange_val(volatile type *at, type expected, type value, int order,           \
                                                    int otherwise)                                                     \
    {                                                                                                                  \
        __tsan_atomic##bits##_compare_exchange_strong(at, &expected, value, order, otherwise);                         \
        return expected;                                                                                               \
    }

ATOMIC_OF(8, uint8_t)
ATOMIC_OF(16, uint16_t)
ATOMIC_OF(32, uint32_t)
ATOMIC_OF(64, uint64_t)
#ifdef __SIZEOF_INT128__
__extension__ typedef unsigned __int128 uint128;
ATOMIC_OF(128, uint128)
#endif

void __tsan_atomic_thread_fence(int order)
{
    static const char *const calls[] = {"atomic_thread_fence (relaxed)", "atomic_thread_fence (consume)",
                                        "atomic_thread_fence (acquire)", "atomic_thread_fence (release)",
                                        "atomic_thread_fence (acq_rel)", "atomic_thread_fence (seq_cst)"};
    if (nicxi_is_in_thread())
        nicxi_call(READY, calls[order <= ALL ? order : ALL], NULL);
    nicxi_race_fence(order);
}

void __tsan_atomic_signal_fence(int order)
{
    (void)order;
}

/* --- other functions --- */

void __tsan_init(void)
{
    nicxi_race_open();
    nicxi_memory_open();
}

/* Each task's stack of calls, the last one on top: each function's entry reports its caller. */
enum { MOST_CALLERS = 64 };

static struct {
    const char *at[MOST_CALLERS];
    unsigned depth;
} callers[MOST_THREADS + 1];

void nicxi_callers_part(struct checkpoint *it)
{
    nicxi_part(it, callers, nicxi.tasks * sizeof *callers);
    nicxi_part(it, callers + NICX_TASKS, nicxi.handlers * sizeof *callers);
    nicxi_part(it, callers + OUTSIDE, sizeof *callers);
}

static unsigned whose(void)
{
    return nicxi_alone ? nicxi_number(nicxi_alone) : nicxi.self ? nicxi_number(nicxi.self) : OUTSIDE;
}

void __tsan_func_entry(void *call)
{
    if (!nicxi_is_maker())
        return;
    unsigned depth = callers[whose()].depth++;
    if (depth < MOST_CALLERS)
        callers[whose()].at[depth] = call;
}

void __tsan_func_exit(void)
{
    if (nicxi_is_maker() && callers[whose()].depth)
        callers[whose()].depth--;
}

const void *nicxi_called_from(void)
{
    unsigned depth = callers[whose()].depth;
    return depth > 1 && depth <= MOST_CALLERS ? callers[whose()].at[depth - 1] - 1 : NULL;
}

void nicxi_forget_callers(void)
{
    for (unsigned k = 0; k <= MOST_THREADS; k++)
        callers[k].depth = 0;
}

void __tsan_ignore_thread_begin(void)
{
}

void __tsan_ignore_thread_end(void)
{
}
