/* The output of nic_why, a line for each reason. */
#include <stdarg.h>
#include <stdio.h>
#include <string.h>

#include "../library/look.h"
#include "why.h"

uint64_t nicl_why_word(const struct nicl_why *it, uint32_t address)
{
    return nicl_word_at(it->of, address);
}

uint64_t nicl_why_field(const struct nicl_why *it, uint32_t address, uint32_t field)
{
    return nic_field((uint32_t)nicl_why_word(it, address), field);
}

const char *nicl_why_bits(struct nicl_why *it, const char *const names[32], uint64_t word)
{
    size_t used = 0;
    it->names[0] = 0;
    for (int bit = 0; bit < 32 && used < sizeof it->names; bit++) {
        char number[8];
        snprintf(number, sizeof number, "bit %d", bit);
        if (word >> bit & 1)
            used += (size_t)snprintf(it->names + used, sizeof it->names - used, "%s%s", used ? ", " : "",
                                     names[bit] ? names[bit] : number);
    }
    return it->names;
}

/* A line that doesn't fit isn't started, and no line follows it. */
static void append(struct nicl_why *it, const char *line, size_t length)
{
    it->is_cut |= it->used + length >= it->room;
    if (!it->is_cut) {
        memcpy(it->text + it->used, line, length);
        it->used += length;
    }
    it->length += length;
}

bool nicl_why_say(struct nicl_why *it, const char *format, ...)
{
    char line[1024];
    va_list list;
    it->lines++;
    if (it->is_silent)
        return true;
    int used = snprintf(line, sizeof line, "%s%s", it->subject, *it->subject ? ": " : "");
    va_start(list, format);
    used += vsnprintf(line + used, sizeof line - (size_t)used - 1, format, list);
    va_end(list);
    if (used > (int)sizeof line - 2)
        used = (int)sizeof line - 2;
    line[used] = '\n';
    append(it, line, (size_t)used + 1);
    return true;
}
