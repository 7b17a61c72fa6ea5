#include "numbered.h"

#include <stdlib.h>
#include <string.h>

#include "frames.h"

/* Hashes the length and the bytes, in the style of FNV-1a. */
static uint64_t print_of(const uint8_t *bytes, size_t length)
{
    uint64_t print = UINT64_C(0xCBF29CE484222325) ^ length;
    for (size_t i = 0; i < length; i++)
        print = (print ^ bytes[i]) * UINT64_C(0x100000001B3);
    return print;
}

/* Returns the index in `places` of the frame with this hash, or of a free place. */
static uint32_t place_of(const struct numbered *it, uint64_t print)
{
    uint32_t place = (uint32_t)(print >> 32) & (it->room - 1);
    while (it->places[place] && it->prints[it->places[place] - 1] != print)
        place = (place + 1) & (it->room - 1);
    return place;
}

static void end_early(struct numbered *it)
{
    free(it->frame);
    free(it->early);
    it->frame = NULL;
    it->early = NULL;
    it->early_count = 0;
}

bool numbered_start(struct numbered *it, unsigned int count, uint16_t most, const uint8_t to[6], const uint8_t from[6])
{
    *it = (struct numbered){.count = count, .room = 16, .most = most};
    memcpy(it->to, to, sizeof it->to);
    memcpy(it->from, from, sizeof it->from);
    while (it->room < 2 * count)
        it->room *= 2;
    it->prints = calloc(count + 1u, sizeof *it->prints);
    it->places = calloc(it->room, sizeof *it->places);
    it->has_come = calloc(count + 1u, sizeof *it->has_come);
    it->frame = malloc(sizeof *it->frame);
    it->early = malloc(NUMBERED_EARLY * sizeof *it->early);
    bool fits = it->frame && it->early && it->prints && it->places && it->has_come;
    if (!fits)
        numbered_end(it);
    return fits;
}

bool numbered_is_ready(const struct numbered *it)
{
    return it->made == it->count;
}

/* Records the arrival of a frame with this hash. Returns false if no frame built so far has this hash. */
static bool take_print(struct numbered *it, uint64_t print)
{
    uint32_t number = it->places ? it->places[place_of(it, print)] : 0;
    if (!number)
        return false;
    if (it->has_come[number - 1]) {
        it->twice++;
    } else {
        it->has_come[number - 1] = true;
        it->good++;
    }
    return true;
}

void numbered_prepare(struct numbered *it, size_t bytes)
{
    if (!it->frame)
        return;
    for (size_t made = 0; it->made < it->count && made < bytes; made += it->frame->length) {
        frame_make(it->frame, it->made + 1, it->most, it->to, it->from);
        it->prints[it->made] = print_of(it->frame->bytes, it->frame->length);
        it->places[place_of(it, it->prints[it->made])] = it->made + 1;
        it->made++;
    }
    if (!numbered_is_ready(it))
        return;
    for (unsigned int i = 0; i < it->early_count; i++)
        it->wrong += !take_print(it, it->early[i]);
    end_early(it);
}

bool numbered_begin(struct numbered *it, unsigned int count, uint16_t most, const uint8_t to[6], const uint8_t from[6])
{
    bool fits = numbered_start(it, count, most, to, from);
    numbered_prepare(it, SIZE_MAX);
    return fits;
}

void numbered_end(struct numbered *it)
{
    end_early(it);
    free(it->prints);
    free(it->places);
    free(it->has_come);
    *it = (struct numbered){0};
}

void numbered_take(struct numbered *it, const uint8_t *bytes, size_t length)
{
    uint64_t print = print_of(bytes, length);
    if (take_print(it, print))
        return;
    if (numbered_is_ready(it) || it->early_count == NUMBERED_EARLY)
        it->wrong++;
    else
        it->early[it->early_count++] = print;
}
