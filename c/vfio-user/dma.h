/* A capability for one client's memory. A function grants it to the rings that its client sets up; descriptors read
   from a ring, and the buffers that they name, inherit it. Nothing else can reach the memory. The capability ends with
   its client: the next client on the socket gets a new capability, and the old client's stale state can't reach any
   memory. */
#ifndef VFU_DMA_H
#define VFU_DMA_H

#include <stdbool.h>
#include <stddef.h>
#include <stdint.h>

struct function;

struct dma {
    const struct function *function; /* null: no function, and no access to any memory */
    uint64_t client;                 /* serial number of the client among the clients of the function's socket */
};

/* An address in a client's memory. */
struct dma_address {
    struct dma of;
    uint64_t at;
};

/* Returns the capability for the memory of the function's current client. */
struct dma dma_of(const struct function *function);
bool dma_is(struct dma it, struct dma other);
/* Returns whether its client is still connected. */
bool dma_is_alive(struct dma it);
/* Returns the number of its client's function on the bus; 0 without a client. */
unsigned int dma_function(struct dma it);
/* Returns the number of its client's socket in the server's order; DMA_NOBODY without a client. */
#define DMA_NOBODY 15u
unsigned int dma_socket(struct dma it);

/* Copy between a client's memory and `bytes`, across ranges. Return false if some bytes are in no range. */
bool dma_read(struct dma_address from, uint8_t *bytes, size_t length);
bool dma_write(struct dma_address to, const uint8_t *bytes, size_t length);
/* Returns a pointer to bytes such as a descriptor or a head; null if they aren't writable or aren't all in one
   range. */
void *dma_whole(struct dma_address at, size_t length);
/* Returns whether all of these bytes are readable and in one range. */
bool dma_has(struct dma_address at, size_t length);

#endif
