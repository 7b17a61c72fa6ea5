#define _DEFAULT_SOURCE
#include "heap.h"

#include <stdint.h>
#include <stdlib.h>
#include <string.h>
#include <sys/mman.h>

#include "checkpoint.h"
#include "piece.h"

enum { PART = 1024 }; /* bytes that are compared at once */

static struct piece *memory;
static char *kept;
static size_t kept_size;

/* The searching thread, identified by the address of its thread-local `mark`. Tasks and handlers run on stacks of that
   thread. Other threads of the process allocate from malloc concurrently; of this file's data, they read only these two
   pointers. */
static char *searcher;
static __thread char mark;

void nicxi_heap_is_mine(void)
{
    if (memory)
        __atomic_store_n(&searcher, &mark, __ATOMIC_RELAXED);
}

bool nicxi_heap_open(void)
{
    struct piece *piece = piece_open();
    if (!piece)
        return false;
    __atomic_store_n(&memory, piece, __ATOMIC_RELAXED);
    nicxi_heap_is_mine();
    return true;
}

void nicxi_heap_close(void)
{
    struct piece *piece = memory;
    __atomic_store_n(&searcher, NULL, __ATOMIC_RELAXED);
    __atomic_store_n(&memory, NULL, __ATOMIC_RELAXED);
    if (piece)
        munmap(piece, PIECE_ROOM);
    free(kept);
    kept = NULL;
    kept_size = 0;
}

bool nicxi_heap_is_used(void)
{
    return memory && memory->used > FIRST;
}

bool nicxi_heap_keep(void)
{
    char *copy = malloc(memory->used);
    if (!copy)
        return false;
    free(kept);
    kept = copy;
    kept_size = memory->used;
    memcpy(kept, memory, kept_size);
    return true;
}

void nicxi_put_back(void *place, const void *copy, size_t size)
{
    char *to = place;
    const char *from = copy;
    for (size_t at = 0; at < size; at += PART) {
        size_t length = size - at < PART ? size - at : PART;
        if (length < PART || memcmp(to + at, from + at, length) != 0)
            memcpy(to + at, from + at, length);
    }
}

void nicxi_heap_back(void)
{
    nicxi_put_back(memory, kept, kept_size);
}

size_t nicxi_heap_size(void)
{
    return memory->used;
}

void nicxi_heap_copy(void *room)
{
    memcpy(room, memory, memory->used);
}

bool nicxi_heap_is(const void *copy, size_t size)
{
    return size == memory->used && memcmp(memory, copy, size) == 0;
}

void nicxi_heap_part(struct checkpoint *it)
{
    size_t used = memory->used;
    nicxi_part(it, &used, sizeof used);
    nicxi_part(it, memory, used);
}

static bool is_searcher(void)
{
    return __atomic_load_n(&searcher, __ATOMIC_RELAXED) == &mark;
}

bool nicxi_heap_pause(void)
{
    if (!is_searcher())
        return false;
    __atomic_store_n(&searcher, NULL, __ATOMIC_RELAXED);
    return true;
}

bool nicxi_heap_has(const void *piece)
{
    return piece_has(__atomic_load_n(&memory, __ATOMIC_RELAXED), piece);
}

/* --- called by the toolchain's library; returns two words, the first of which is 1 if there was memory --- */

struct taken {
    size_t is_there;
    void *piece;
};

static size_t nothing;

/* A size of 0 allocates as much as the alignment, which is at most 16 in this library. */
static struct taken as_taken(void *piece)
{
    struct taken taken = {piece != NULL, piece ? piece : &nothing};
    return taken;
}

struct taken nic82599_alloc(size_t size, size_t align);
struct taken nic82599_realloc(void *piece, size_t old, size_t size, size_t align);
void nic82599_dealloc(void *piece);

struct taken nic82599_alloc(size_t size, size_t align)
{
    size_t wanted = size ? size : align;
    return as_taken(is_searcher() ? piece_take(memory, wanted) : malloc(wanted));
}

/* Returns a block to its allocator. If another thread frees a block of the search's piece, nothing happens: it is
   released with the whole piece. */
void nic82599_dealloc(void *piece)
{
    if (!nicxi_heap_has(piece))
        free(piece);
    else if (is_searcher())
        piece_give(memory, piece);
}

struct taken nic82599_realloc(void *piece, size_t old, size_t size, size_t align)
{
    size_t wanted = size ? size : align;
    if (!nicxi_heap_has(piece))
        return as_taken(realloc(piece, wanted));
    void *moved = is_searcher() ? piece_take(memory, wanted) : malloc(wanted);
    if (moved) {
        memcpy(moved, piece, old < wanted ? old : wanted);
        nic82599_dealloc(piece);
    }
    return as_taken(moved);
}
