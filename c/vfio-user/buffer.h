/* A FIFO of bytes. */
#ifndef VFU_BUFFER_H
#define VFU_BUFFER_H

#include <stdbool.h>
#include <stddef.h>
#include <stdint.h>

struct buffer {
    uint8_t *bytes;
    size_t at, end, room; /* the waiting bytes are bytes[at .. end) */
};

static inline size_t buffer_waiting(const struct buffer *it)
{
    return it->end - it->at;
}

static inline const uint8_t *buffer_front(const struct buffer *it)
{
    return it->bytes + it->at;
}

/* Appends the head, then the bytes. If memory runs out, returns false and appends neither. */
bool buffer_put(struct buffer *it, const void *head, size_t head_length, const void *bytes, size_t length);
/* Removes this many bytes from the front. They must be in the buffer. */
void buffer_take(struct buffer *it, size_t length);
void buffer_clear(struct buffer *it);

#endif
