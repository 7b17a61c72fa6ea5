/* Turns each driver access to a descriptor ring into an explorer point. The driver's files that touch rings are
   compiled with -fsanitize=thread, so the compiler calls the functions below before each memory access. The sanitizer's
   own library isn't linked: this file defines all of its functions that are called. Accesses outside the rings are
   ignored.

   A ring has two copies: the process's copy, which the driver accesses, and the bench's copy. Before a load, the bytes
   to load are copied from the bench. A store is copied to the bench at the next access to any address; no other task
   runs in between. */
#include <string.h>

#include "explore.h"

enum { MOST_RINGS = 4 };

static struct ring {
    volatile uint8_t *at;
    uint64_t bus;
    size_t length;
} rings[MOST_RINGS];
static unsigned int count;

static struct {
    uint64_t bus;
    volatile uint8_t *at;
    size_t length;
} stored;

void points_begin(void)
{
    count = 0;
    stored.length = 0;
}

void points_ring(volatile void *at, uint64_t bus, size_t length)
{
    if (count < MOST_RINGS)
        rings[count++] = (struct ring){at, bus, length};
}

void points_flush(void)
{
    uint8_t bytes[16];
    size_t length = stored.length;
    if (!length)
        return;
    stored.length = 0;
    memcpy(bytes, (const uint8_t *)(uintptr_t)stored.at, length);
    nicx_dma_write(stored.bus, bytes, length);
}

static const struct ring *ring_of(const volatile uint8_t *at)
{
    for (unsigned int k = 0; k < count; k++)
        if (at >= rings[k].at && at < rings[k].at + rings[k].length)
            return &rings[k];
    return NULL;
}

static void load(volatile uint8_t *at, size_t length)
{
    const struct ring *ring = ring_of(at);
    if (!ring)
        return;
    points_flush();
    nicx_dma_read(ring->bus + (uint64_t)(at - ring->at), (uint8_t *)(uintptr_t)at, length);
}

static void store(volatile uint8_t *at, size_t length)
{
    const struct ring *ring = ring_of(at);
    if (!ring)
        return;
    points_flush();
    stored.bus = ring->bus + (uint64_t)(at - ring->at);
    stored.at = at;
    stored.length = length;
}

/* ---- called by the compiler ---- */

#define ACCESS(name, what, size)                                                                                       \
    void name(void *at);                                                                                               \
    void name(void *at)                                                                                                \
    {                                                                                                                  \
        what(at, size);                                                                                                \
    }

#define ACCESSES(size)                                                                                                 \
    ACCESS(__tsan_read##size, load, size)                                                                              \
    ACCESS(__tsan_write##size, store, size)                                                                            \
    ACCESS(__tsan_volatile_read##size, load, size)                                                                     \
    ACCESS(__tsan_volatile_write##size, store, size)

#define UNALIGNED(size)                                                                                                \
    ACCESS(__tsan_unaligned_read##size, load, size)                                                                    \
    ACCESS(__tsan_unaligned_write##size, store, size)                                                                  \
    ACCESS(__tsan_unaligned_volatile_read##size, load, size)                                                           \
    ACCESS(__tsan_unaligned_volatile_write##size, store, size)

ACCESSES(1)
ACCESSES(2)
ACCESSES(4)
ACCESSES(8)
ACCESSES(16)
UNALIGNED(2)
UNALIGNED(4)
UNALIGNED(8)
UNALIGNED(16)

/* Performs longer accesses descriptor by descriptor. */
static void each(void (*what)(volatile uint8_t *, size_t), volatile uint8_t *at, size_t length)
{
    for (size_t done = 0; done < length; done += 16)
        what(at + done, length - done < 16 ? length - done : 16);
}

void __tsan_read_range(void *at, size_t length);
void __tsan_read_range(void *at, size_t length)
{
    each(load, at, length);
}

void __tsan_write_range(void *at, size_t length);
void __tsan_write_range(void *at, size_t length)
{
    each(store, at, length);
}

void __tsan_init(void);
void __tsan_init(void)
{
}

/* Atomic operations, which only reference counters use, are performed directly. */
#define ATOMIC(bits, type)                                                                                             \
    type __tsan_atomic##bits##_load(const volatile type *at, int order);                                               \
    type __tsan_atomic##bits##_load(const volatile type *at, int order)                                                \
    {                                                                                                                  \
        (void)order;                                                                                                   \
        return __atomic_load_n(at, __ATOMIC_SEQ_CST);                                                                  \
    }                                                                                                                  \
    void __tsan_atomic##bits##_store(volatile type *at, type value, int order);                                        \
    void __tsan_atomic##bits##_store(volatile type *at, type value, int order)                                         \
    {                                                                                                                  \
        (void)order;                                                                                                   \
        __atomic_store_n(at, value, __ATOMIC_SEQ_CST);                                                                 \
    }                                                                                                                  \
    type __tsan_atomic##bits##_fetch_add(volatile type *at, type value, int order);                                    \
    type __tsan_atomic##bits##_fetch_add(volatile type *at, type value, int order)                                     \
    {                                                                                                                  \
        (void)order;                                                                                                   \
        return __atomic_fetch_add(at, value, __ATOMIC_SEQ_CST);                                                        \
    }                                                                                                                  \
    type __tsan_atomic##bits##_fetch_sub(volatile type *at, type value, int order);                                    \
    type __tsan_atomic##bits##_fetch_sub(volatile type *at, type value, int order)                                     \
    {                                                                                                                  \
        (void)order;                                                                                                   \
        return __atomic_fetch_sub(at, value, __ATOMIC_SEQ_CST);                                                        \
    }

ATOMIC(16, uint16_t)
ATOMIC(32, uint32_t)
ATOMIC(64, uint64_t)

void __tsan_atomic_thread_fence(int order);
void __tsan_atomic_thread_fence(int order)
{
    (void)order;
    __atomic_thread_fence(__ATOMIC_SEQ_CST);
}
