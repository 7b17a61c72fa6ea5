/* Preloaded before a User-Mode Linux's C library. It makes the guest's random numbers the same in each run, so that two
   runs can be compared access by access. */
#include <stddef.h>
#include <stdint.h>
#include <sys/types.h>

ssize_t getrandom(void *bytes, size_t length, unsigned int flags);

ssize_t getrandom(void *bytes, size_t length, unsigned int flags)
{
    static uint32_t state = 82599;
    uint8_t *at = bytes;
    (void)flags;
    for (size_t i = 0; i < length; i++) {
        state = state * 1664525u + 1013904223u;
        at[i] = (uint8_t)(state >> 24);
    }
    return (ssize_t)length;
}
