/* A fuzzer's input, consumed from its front. Reads beyond its end return 0, so that each input is valid. */
#ifndef FUZZ_INPUT_H
#define FUZZ_INPUT_H

#include <stdbool.h>
#include <stddef.h>
#include <stdint.h>
#include <stdio.h>
#include <stdlib.h>
#include <string.h>

struct input {
    const uint8_t *bytes;
    size_t length, at;
};

static inline bool input_is_over(const struct input *it)
{
    return it->at >= it->length;
}

/* Copies this many bytes. */
static inline void input_take(struct input *it, void *to, size_t count)
{
    size_t left = it->length - it->at, taken = left < count ? left : count;
    memcpy(to, it->bytes + it->at, taken);
    memset((char *)to + taken, 0, count - taken);
    it->at += taken;
}

static inline uint8_t input_byte(struct input *it)
{
    uint8_t byte;
    input_take(it, &byte, sizeof byte);
    return byte;
}

static inline uint16_t input_short(struct input *it)
{
    uint8_t bytes[2];
    input_take(it, bytes, sizeof bytes);
    return (uint16_t)(bytes[0] | bytes[1] << 8);
}

static inline uint32_t input_word(struct input *it)
{
    uint32_t low = input_short(it);
    return low | (uint32_t)input_short(it) << 16;
}

/* Checks a condition that must hold for an input. If it doesn't, the process aborts, as a fuzzer expects. */
#define MUST(holds)                                                                                                    \
    do {                                                                                                               \
        if (!(holds)) {                                                                                                \
            fprintf(stderr, "%s:%d: this doesn't hold: %s\n", __FILE__, __LINE__, #holds);                             \
            abort();                                                                                                   \
        }                                                                                                              \
    } while (0)

/* A target: tries one input, and returns 0. libFuzzer, AFL++'s driver and replay.c call it. */
int LLVMFuzzerTestOneInput(const uint8_t *bytes, size_t length);

#endif
