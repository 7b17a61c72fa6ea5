#include "dma.h"

#include <string.h>

#include "function.h"

struct dma dma_of(const struct function *function)
{
    return (struct dma){function, function->client};
}

bool dma_is(struct dma it, struct dma other)
{
    return it.function == other.function && it.client == other.client;
}

bool dma_is_alive(struct dma it)
{
    return it.function && it.client == it.function->client;
}

unsigned int dma_function(struct dma it)
{
    return it.function ? it.function->number : 0;
}

unsigned int dma_socket(struct dma it)
{
    return it.function ? it.function->socket : DMA_NOBODY;
}

/* Returns a pointer into a client's memory; null if the client has left or may not access the address. Every access to
   a client's memory goes through this function. *length is the wanted number of bytes, and becomes the number that is
   contiguous here. */
static void *run(struct dma_address at, size_t *length, bool write)
{
    return dma_is_alive(at.of) ? memory_map_run(&at.of.function->session.map, at.at, length, write) : NULL;
}

bool dma_read(struct dma_address from, uint8_t *bytes, size_t length)
{
    while (length) {
        size_t piece = length;
        const void *at = run(from, &piece, false);
        if (!at)
            return false;
        memcpy(bytes, at, piece);
        bytes += piece;
        from.at += piece;
        length -= piece;
    }
    return true;
}

bool dma_write(struct dma_address to, const uint8_t *bytes, size_t length)
{
    while (length) {
        size_t piece = length;
        void *at = run(to, &piece, true);
        if (!at)
            return false;
        memcpy(at, bytes, piece);
        bytes += piece;
        to.at += piece;
        length -= piece;
    }
    return true;
}

void *dma_whole(struct dma_address at, size_t length)
{
    size_t piece = length;
    void *there = run(at, &piece, true);
    return piece == length ? there : NULL;
}

bool dma_has(struct dma_address at, size_t length)
{
    size_t piece = length;
    return run(at, &piece, false) && piece == length;
}
