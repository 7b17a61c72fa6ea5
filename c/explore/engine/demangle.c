#include "demangle.h"

#include <ctype.h>
#include <stdint.h>
#include <string.h>

enum { MOST_DEPTH = 32, MOST_PARTS = 256, HASH = 16 };

/* The input and the output. Parts are counted, because a single part may refer back to many. */
struct names {
    const char *symbol; /* what follows the prefix */
    size_t at, end;
    char *room;
    size_t size, length;
    unsigned silent, depth, parts;
    bool is_bad;
};

static void put(struct names *it, const char *text, size_t length)
{
    if (it->silent || it->is_bad)
        return;
    if (length >= it->size - it->length) {
        it->is_bad = true;
        return;
    }
    memcpy(it->room + it->length, text, length);
    it->length += length;
    it->room[it->length] = 0;
}

#define PUT(it, text) put(it, text, sizeof(text) - 1)

static char peek(const struct names *it)
{
    return !it->is_bad && it->at < it->end ? it->symbol[it->at] : 0;
}

static bool take(struct names *it, char letter)
{
    bool is_there = letter && peek(it) == letter;
    it->at += is_there;
    return is_there;
}

static char next(struct names *it)
{
    char letter = peek(it);
    it->is_bad |= !letter;
    it->at += letter != 0;
    return letter;
}

static size_t take_decimal(struct names *it)
{
    size_t number = 0;
    if (!isdigit((unsigned char)peek(it)))
        it->is_bad = true;
    while (isdigit((unsigned char)peek(it)) && number < SIZE_MAX / 16)
        number = 10 * number + (size_t)(next(it) - '0');
    return number;
}

/* Consumes this many bytes. Returns null if fewer remain. */
static const char *take_bytes(struct names *it, size_t length)
{
    const char *from = it->symbol + it->at;
    if (it->is_bad || length > it->end - it->at) {
        it->is_bad = true;
        return NULL;
    }
    it->at += length;
    return from;
}

/* --- the older mangling --- */

struct escape {
    const char *name, *text;
};

/* Appends the character that an escape stands for: "$LT$", or "$u7b$" with the character's code. Returns the escape's
   length. */
static size_t put_escape(struct names *it, const char *from, size_t left)
{
    static const struct escape escapes[] = {{"$SP$", "@"}, {"$BP$", "*"}, {"$RF$", "&"}, {"$LT$", "<"},
                                            {"$GT$", ">"}, {"$LP$", "("}, {"$RP$", ")"}, {"$C$", ","}};
    for (size_t k = 0; k < sizeof escapes / sizeof *escapes; k++) {
        size_t length = strlen(escapes[k].name);
        if (left >= length && !memcmp(from, escapes[k].name, length)) {
            put(it, escapes[k].text, 1);
            return length;
        }
    }
    if (left >= 5 && from[1] == 'u' && isxdigit((unsigned char)from[2]) && isxdigit((unsigned char)from[3]) &&
        from[4] == '$') {
        static const char digits[] = "0123456789abcdef";
        const char *high = strchr(digits, from[2]), *low = strchr(digits, from[3]);
        char letter = high && low ? (char)(16 * (high - digits) + (low - digits)) : '?';
        put(it, letter >= ' ' && letter <= '~' ? &letter : "?", 1);
        return 5;
    }
    put(it, from, 1);
    return 1;
}

static void put_older(struct names *it, const char *from, size_t length)
{
    size_t k = length > 1 && from[0] == '_' && from[1] == '$' ? 1 : 0;
    while (k < length) {
        if (from[k] == '$') {
            k += put_escape(it, from + k, length - k);
        } else if (from[k] == '.' && k + 1 < length && from[k + 1] == '.') {
            PUT(it, "::");
            k += 2;
        } else {
            put(it, from + k++, 1);
        }
    }
}

static bool is_hash(const char *from, size_t length)
{
    bool is_it = length == HASH + 1 && *from == 'h';
    for (size_t k = 1; is_it && k < length; k++)
        is_it = isxdigit((unsigned char)from[k]) != 0;
    return is_it;
}

/* Demangles a name only if it ends in a hash, which no C++ name does. */
static bool demangle_older(struct names *it)
{
    bool has_hash = false;
    for (unsigned parts = 0; !it->is_bad && !has_hash && peek(it) != 'E'; parts++) {
        size_t length = take_decimal(it);
        const char *from = take_bytes(it, length);
        has_hash = from && is_hash(from, length);
        if (!from || has_hash)
            continue;
        if (parts)
            PUT(it, "::");
        put_older(it, from, length);
    }
    return has_hash && take(it, 'E') && !it->is_bad && it->length;
}

/* --- the newer mangling --- */

static void path(struct names *it);
static void type(struct names *it);

/* Reads a number in base 62 (digits, small letters, capitals): "_" is 0, "0_" is 1. A number of more than 64 bits is
   truncated to its low bits: numbers this large distinguish crates, and aren't positions. */
static uint64_t take_base62(struct names *it)
{
    static const char digits[] = "0123456789abcdefghijklmnopqrstuvwxyzABCDEFGHIJKLMNOPQRSTUVWXYZ";
    uint64_t number = 0;
    if (take(it, '_'))
        return 0;
    while (!it->is_bad && !take(it, '_')) {
        const char *digit = strchr(digits, next(it));
        if (!digit || !*digit)
            it->is_bad = true;
        else
            number = 62 * number + (uint64_t)(digit - digits);
    }
    return number + 1;
}

static uint64_t take_number(struct names *it, char tag)
{
    return take(it, tag) ? take_base62(it) + 1 : 0;
}

static void identifier(struct names *it, const char **from, size_t *length)
{
    take(it, 'u');
    *length = take_decimal(it);
    take(it, '_');
    *from = take_bytes(it, *length);
}

/* Follows a back reference: demangles what is at an earlier position. */
static void refer(struct names *it, void (*what)(struct names *))
{
    size_t here = it->at - 1, to = (size_t)take_base62(it), back = it->at;
    if (it->is_bad || to >= here) {
        it->is_bad = true;
        return;
    }
    it->at = to;
    what(it);
    it->at = back;
}

static void silently(struct names *it, void (*what)(struct names *))
{
    it->silent++;
    what(it);
    it->silent--;
}

static void nested(struct names *it)
{
    char space = next(it), number[32];
    const char *from;
    size_t length;
    path(it);
    uint64_t which = take_number(it, 's');
    identifier(it, &from, &length);
    if (!from)
        return;
    if (space != 'C' && space != 'S') {
        if (length)
            PUT(it, "::");
        put(it, from, length);
        return;
    }
    size_t at = sizeof number;
    do
        number[--at] = (char)('0' + which % 10);
    while (which /= 10);
    if (space == 'C')
        PUT(it, "::{closure#");
    else
        PUT(it, "::{shim#");
    put(it, number + at, sizeof number - at);
    PUT(it, "}");
}

static void constant(struct names *it)
{
    if (take(it, 'B')) {
        refer(it, constant);
        return;
    }
    if (take(it, 'p'))
        return;
    type(it);
    while (!it->is_bad && !take(it, '_'))
        next(it);
}

static void arguments(struct names *it)
{
    while (!it->is_bad && !take(it, 'E')) {
        if (take(it, 'L'))
            take_base62(it);
        else if (take(it, 'K'))
            constant(it);
        else
            type(it);
    }
}

static void implementation(struct names *it)
{
    take_number(it, 's');
    silently(it, path);
}

static void in_brackets(struct names *it, bool has_trait)
{
    PUT(it, "<");
    type(it);
    if (has_trait) {
        PUT(it, " as ");
        path(it);
    }
    PUT(it, ">");
}

static void path_of(struct names *it)
{
    const char *from;
    size_t length;
    switch (next(it)) {
    case 'C':
        take_number(it, 's');
        identifier(it, &from, &length);
        if (from)
            put(it, from, length);
        break;
    case 'N': nested(it); break;
    case 'M':
        implementation(it);
        in_brackets(it, false);
        break;
    case 'X':
        implementation(it);
        in_brackets(it, true);
        break;
    case 'Y': in_brackets(it, true); break;
    case 'I':
        path(it);
        silently(it, arguments);
        break;
    case 'B': refer(it, path); break;
    default: it->is_bad = true;
    }
}

static void path(struct names *it)
{
    if (it->is_bad || it->depth >= MOST_DEPTH || it->parts >= MOST_PARTS) {
        it->is_bad = true;
        return;
    }
    it->depth++;
    it->parts++;
    path_of(it);
    it->depth--;
}

static void function_type(struct names *it)
{
    const char *from;
    size_t length;
    take_number(it, 'G');
    take(it, 'U');
    if (take(it, 'K') && !take(it, 'C'))
        identifier(it, &from, &length);
    while (!it->is_bad && !take(it, 'E'))
        type(it);
    type(it);
}

static void bounds(struct names *it)
{
    const char *from;
    size_t length;
    take_number(it, 'G');
    while (!it->is_bad && !take(it, 'E')) {
        path(it);
        while (take(it, 'p')) {
            identifier(it, &from, &length);
            type(it);
        }
    }
    if (take(it, 'L'))
        take_base62(it);
}

static void several(struct names *it)
{
    while (!it->is_bad && !take(it, 'E'))
        type(it);
}

static void array(struct names *it)
{
    type(it);
    constant(it);
}

static void pointer(struct names *it)
{
    PUT(it, "*");
    type(it);
}

static void type_of(struct names *it, char tag)
{
    static const char plain[] = "abcdefhijlmnopstuvxyz"; /* i8, bool, char, .. */
    if (memchr(plain, tag, sizeof plain - 1)) {
        PUT(it, "_");
        return;
    }
    switch (tag) {
    case 'R':
    case 'Q':
        if (take(it, 'L'))
            take_base62(it);
        PUT(it, "&");
        type(it);
        break;
    case 'P':
    case 'O': pointer(it); break;
    case 'S':
        PUT(it, "[_]");
        silently(it, type);
        break;
    case 'A':
        PUT(it, "[_]");
        silently(it, array);
        break;
    case 'T':
        PUT(it, "(_)");
        silently(it, several);
        break;
    case 'F':
        PUT(it, "fn");
        silently(it, function_type);
        break;
    case 'D':
        PUT(it, "dyn _");
        silently(it, bounds);
        break;
    case 'B': refer(it, type); break;
    default: it->at--; path(it);
    }
}

static void type(struct names *it)
{
    if (it->is_bad || it->depth >= MOST_DEPTH || it->parts >= MOST_PARTS) {
        it->is_bad = true;
        return;
    }
    it->depth++;
    it->parts++;
    type_of(it, next(it));
    it->depth--;
}

bool nicxi_demangle(const char *symbol, char *room, size_t size)
{
    bool is_older = !strncmp(symbol, "_ZN", 3), is_newer = !strncmp(symbol, "_R", 2);
    struct names it = {.symbol = symbol + (is_older ? 3 : 2), .room = room, .size = size};
    if (!size || (!is_older && !is_newer))
        return false;
    it.end = strcspn(it.symbol, is_older ? "" : ".");
    room[0] = 0;
    if (is_older)
        return demangle_older(&it);
    path(&it);
    return !it.is_bad && it.length;
}
