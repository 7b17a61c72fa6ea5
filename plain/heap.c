/* The heap of the plain edition's C library, as plain/kit/raw.rs declares it. It is libc's heap, under names that
   c/heap.syms lists for renaming. The proved library contains its own heap; the explorer replaces either
   (c/explore/engine/heap.c). A request for 0 bytes allocates as many bytes as its alignment, which is at most malloc's
   alignment. */
#include <stddef.h>
#include <stdlib.h>

struct taken {
    size_t is_there;
    void *piece;
};

struct taken rattle_alloc(size_t size, size_t align);
struct taken rattle_realloc(void *piece, size_t old, size_t size, size_t align);
void rattle_dealloc(void *piece);

static struct taken taken(void *piece)
{
    struct taken it = {piece != NULL, piece};
    return it;
}

struct taken rattle_alloc(size_t size, size_t align)
{
    return taken(malloc(size ? size : align));
}

struct taken rattle_realloc(void *piece, size_t old, size_t size, size_t align)
{
    (void)old;
    return taken(realloc(piece, size ? size : align));
}

void rattle_dealloc(void *piece)
{
    free(piece);
}
