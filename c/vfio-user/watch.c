#include "watch.h"

#include <stdio.h>
#include <string.h>

#include "registers.h"

/* Parses the number of an existing virtual function and a register's name: "vw 1 VFTDT[0]". */
static const char *place_of_function(struct watch_place *it, const char *words, unsigned int functions)
{
    unsigned int number;
    int end = 0;
    if (sscanf(words, "%2u %n", &number, &end) != 1 || !end || number >= functions)
        return "vr FUNCTION REGISTER, vw FUNCTION REGISTER: this server has no such function";
    it->function = number + 1;
    return function_register_named(words + end, &it->offset) ? NULL : "virtual functions have no such register";
}

static const char *place_of(struct watch_place *it, const char *words, unsigned int functions)
{
    bool is_virtual = *words == 'v';
    words += is_virtual;
    if ((*words != 'r' && *words != 'w') || words[1] != ' ')
        return "expected hold at r REGISTER, w REGISTER, vr FUNCTION REGISTER, vw FUNCTION REGISTER, or off";
    it->is_write = *words == 'w';
    words += 2;
    if (is_virtual)
        return place_of_function(it, words, functions);
    return register_named(words, &it->offset) ? NULL : "no register has this name: see docs/REGISTERS.md";
}

const char *watch_add(struct watch *it, const char *words, unsigned int functions)
{
    struct watch_place place = {.times = 0};
    if (strlen(words) >= sizeof place.text)
        return "a place is at most 47 bytes long";
    const char *error = place_of(&place, words, functions);
    if (error)
        return error;
    if (it->count == WATCH_PLACES)
        return "there are already 8 places: hold at off clears them";
    strcpy(place.text, words);
    it->places[it->count++] = place;
    return NULL;
}

void watch_clear(struct watch *it)
{
    *it = (struct watch){.count = 0};
}

bool watch_meets(struct watch *it, unsigned int function, bool is_write, uint32_t offset, uint32_t word)
{
    for (unsigned int i = 0; i < it->count; i++) {
        struct watch_place *place = &it->places[i];
        if (place->function != function || place->is_write != is_write || place->offset != offset)
            continue;
        place->times++;
        it->met = place;
        it->word = word;
        return true;
    }
    return false;
}
