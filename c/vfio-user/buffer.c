#include "buffer.h"

#include <stdlib.h>
#include <string.h>

/* Makes room for this many more bytes at the end. */
static bool make_room(struct buffer *it, size_t length)
{
    if (length <= it->room - it->end)
        return true;
    if (it->at) {
        memmove(it->bytes, it->bytes + it->at, buffer_waiting(it));
        it->end -= it->at;
        it->at = 0;
    }
    if (length <= it->room - it->end)
        return true;
    if (length > SIZE_MAX / 4 - it->end)
        return false;
    size_t room = 2 * (it->end + length);
    uint8_t *more = realloc(it->bytes, room);
    if (!more)
        return false;
    it->bytes = more;
    it->room = room;
    return true;
}

bool buffer_put(struct buffer *it, const void *head, size_t head_length, const void *bytes, size_t length)
{
    if (!make_room(it, head_length + length))
        return false;
    if (head_length)
        memcpy(it->bytes + it->end, head, head_length);
    if (length)
        memcpy(it->bytes + it->end + head_length, bytes, length);
    it->end += head_length + length;
    return true;
}

void buffer_take(struct buffer *it, size_t length)
{
    it->at += length;
    if (it->at == it->end)
        it->at = it->end = 0;
}

void buffer_clear(struct buffer *it)
{
    free(it->bytes);
    *it = (struct buffer){0};
}
