#include "registers.h"

#include <stdio.h>
#include <string.h>

#include "bus.h"

#define NAME_BYTES 32
#define COUNT(list) (sizeof(list) / sizeof *(list))

#include "../explore/engine/names.inc"

/* Reads an address below `bytes`, such as "0x00800". */
static bool is_address(const char *text, uint32_t bytes, uint32_t *address)
{
    unsigned int number;
    int end = 0;
    if (sscanf(text, "0x%5x%n", &number, &end) != 1 || text[end] || number % 4 || number >= bytes)
        return false;
    *address = number;
    return true;
}

/* Splits "TDT[3]" into name and index; "EICR" is "EICR[0]". */
static bool split(const char *text, char name[NAME_BYTES], uint32_t *index)
{
    int end = 0, after = 0;
    unsigned int number = 0;
    if (sscanf(text, "%31[A-Za-z0-9_]%n", name, &end) != 1)
        return false;
    if (text[end] && (sscanf(text + end, "[%4u]%n", &number, &after) != 1 || text[end + after]))
        return false;
    *index = number;
    return true;
}

/* Finds an address below `bytes`, or the register with this name in a list. */
static bool find(const char *text, uint32_t bytes, const struct run *list, size_t count, uint32_t *at)
{
    char name[NAME_BYTES];
    uint32_t index;
    if (is_address(text, bytes, at))
        return true;
    if (!split(text, name, &index))
        return false;
    for (const struct run *run = list; run < list + count; run++)
        if (strcmp(run->name, name) == 0 && index >= run->index && index - run->index < run->count) {
            *at = run->first + run->stride * (index - run->index);
            return true;
        }
    return false;
}

bool register_named(const char *text, uint32_t *address)
{
    return find(text, BUS_SPACE, registers, COUNT(registers), address);
}

bool function_register_named(const char *text, uint32_t *offset)
{
    return find(text, BUS_FUNCTION_SPACE, offsets, COUNT(offsets), offset);
}
