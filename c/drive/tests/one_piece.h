/* Rings and buffers in a single piece of memory, as docs/port.md describes for a driver with static rings and buffers.
   The driver of examples/adapter runs with this file included after os.h: the glue provides the piece, and bus
   addresses are offsets in it. */
#ifndef ONE_PIECE_H
#define ONE_PIECE_H

#include <stdbool.h>

enum { ALIGNED = 128 };

static struct {
    uint8_t *memory;
    uint64_t bus;
    size_t used;
} piece;

static uint64_t virt_to_bus(const void *pointer)
{
    return piece.bus + (uint64_t)((const uint8_t *)pointer - piece.memory);
}

static size_t rounded(size_t bytes)
{
    return (bytes + ALIGNED - 1) / ALIGNED * ALIGNED;
}

static bool open_piece(size_t ring, size_t pool)
{
    piece.used = 0;
    piece.memory = os_dma_alloc(2 * (rounded(ring) + rounded(pool)), &piece.bus);
    return piece.memory;
}

static void close_piece(void)
{
    os_dma_free(piece.memory, piece.bus);
}

static void *part_of_piece(size_t bytes, uint64_t *bus)
{
    void *part = piece.memory + piece.used;
    piece.used += rounded(bytes);
    *bus = virt_to_bus(part);
    return part;
}

#define os_dma_alloc(bytes, bus) part_of_piece(bytes, bus)
#define os_dma_free(memory, bus) ((void)(memory), (void)(bus))

#endif
