/* An allocator over one piece of memory that is restored by a copy, so the part in use is kept small. A block's size
   class is in the 16 bytes before it. Free blocks of a class form a list linked through the blocks themselves. The
   lists' heads are in the piece too, so the copy restores them. */
#ifndef NICX_PIECE_H
#define NICX_PIECE_H

#include <stdbool.h>
#include <stddef.h>
#include <string.h>
#include <sys/mman.h>

enum { HEAD = 16, UNIT = 16, PARTS = 8, CLASSES = PARTS * 24, FIRST = 2048 };

#define PIECE_ROOM ((size_t)1 << 30)

struct piece {
    size_t used; /* size in bytes of everything handed out so far, including this struct */
    void *free[CLASSES];
};

/* Returns null if the machine has no memory for it. */
static inline struct piece *piece_open(void)
{
    void *room = mmap(NULL, PIECE_ROOM, PROT_READ | PROT_WRITE, MAP_PRIVATE | MAP_ANONYMOUS | MAP_NORESERVE, -1, 0);
    if (room == MAP_FAILED)
        return NULL;
    struct piece *piece = room;
    piece->used = FIRST;
    return piece;
}

static inline bool piece_has(const struct piece *piece, const void *taken)
{
    return piece && (const char *)taken >= (const char *)piece &&
           (const char *)taken < (const char *)piece + PIECE_ROOM;
}

/* Returns the class for a size plus its header: every multiple of 16 up to 128, then eight sizes for each doubling. */
static inline unsigned piece_class(size_t size)
{
    size_t units = (size + HEAD + UNIT - 1) / UNIT;
    unsigned shift = 0;
    while ((units - 1) >> shift >= 2 * (size_t)PARTS)
        shift++;
    return units <= PARTS ? (unsigned)units - 1 : PARTS * shift + (unsigned)((units - 1) >> shift);
}

static inline size_t piece_whole(unsigned k)
{
    unsigned shift = k < PARTS ? 0 : k / PARTS - 1;
    return ((size_t)(k - PARTS * shift) + 1) << shift << 4;
}

/* Takes memory that was never handed out. */
static inline void *piece_fresh(struct piece *piece, unsigned k)
{
    size_t whole = k < CLASSES ? piece_whole(k) : PIECE_ROOM;
    if (whole > PIECE_ROOM - piece->used)
        return NULL;
    char *taken = (char *)piece + piece->used + HEAD;
    piece->used += whole;
    memcpy(taken - HEAD, &k, sizeof k);
    return taken;
}

static inline void *piece_take(struct piece *piece, size_t size)
{
    if (size > PIECE_ROOM)
        return NULL;
    unsigned k = piece_class(size);
    char *taken = piece->free[k];
    if (!taken)
        return piece_fresh(piece, k);
    memcpy(&piece->free[k], taken, sizeof(void *));
    return taken;
}

static inline void piece_give(struct piece *piece, void *taken)
{
    unsigned k;
    memcpy(&k, (char *)taken - HEAD, sizeof k);
    memcpy(taken, &piece->free[k], sizeof(void *));
    piece->free[k] = taken;
}

/* Returns the usable size of a block. */
static inline size_t piece_size(const void *taken)
{
    unsigned k;
    memcpy(&k, (const char *)taken - HEAD, sizeof k);
    return piece_whole(k) - HEAD;
}

#endif
