/* Formats text without printf, which took most of the time of a recorded line. Text that doesn't fit is truncated, and
   a 0 ends it. */
#ifndef NICL_TEXT_H
#define NICL_TEXT_H

#include <stddef.h>
#include <stdint.h>
#include <string.h>

enum { NICL_MOST_DIGITS = 20 };

struct nicl_text {
    char *at, *end; /* where the text continues, and the last byte, which is for the 0 */
};

static inline struct nicl_text nicl_text_in(char *room, size_t size)
{
    return (struct nicl_text){room, room + size - 1};
}

static inline void nicl_put_bytes(struct nicl_text *it, const char *bytes, size_t length)
{
    size_t room = (size_t)(it->end - it->at);
    size_t more = length < room ? length : room;
    memcpy(it->at, bytes, more);
    it->at += more;
    *it->at = 0;
}

static inline void nicl_put(struct nicl_text *it, const char *text)
{
    nicl_put_bytes(it, text, strlen(text));
}

/* Adds a number in decimal. */
static inline void nicl_put_number(struct nicl_text *it, uint64_t number)
{
    char digits[NICL_MOST_DIGITS], *first = digits + sizeof digits;
    do {
        *--first = (char)('0' + number % 10);
        number /= 10;
    } while (number);
    nicl_put_bytes(it, first, (size_t)(digits + sizeof digits - first));
}

/* Adds a word in hexadecimal after `0x`, with at least this many digits. */
static inline void nicl_put_word(struct nicl_text *it, uint64_t word, unsigned least)
{
    char digits[NICL_MOST_DIGITS], *first = digits + sizeof digits;
    for (unsigned count = 0; count < least || word; count++, word >>= 4)
        *--first = "0123456789abcdef"[word & 15];
    *--first = 'x';
    *--first = '0';
    nicl_put_bytes(it, first, (size_t)(digits + sizeof digits - first));
}

#endif
