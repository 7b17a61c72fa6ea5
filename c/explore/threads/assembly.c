/* Finds barriers and exchanges in a driver's inline assembly or processor intrinsics, which neither the compiler's
   instrumentation nor the search sees. Scans the driver's linked code for byte sequences that no other
   compiler-generated instruction contains. If none is found, nothing is reported. */
#include <string.h>

#include "form.h"

extern const uint8_t nicxi_text_begin[], nicxi_text_end[];

#if defined __x86_64__

extern const char __executable_start[], _end[]; /* set by the linker: the program's bounds */

static bool begins(const uint8_t *at, size_t left, const char *bytes, size_t length)
{
    return left >= length && !memcmp(at, bytes, length);
}

#define BEGINS(bytes) begins(at, left, bytes, sizeof(bytes) - 1)

/* Whether an instruction, after its prefixes, is an exchange with memory. These instructions aren't used without a lock
   prefix. */
static bool exchanges(const uint8_t *at, size_t left)
{
    bool has_rex = left && (at[0] & 0xF0) == 0x40;
    if (has_rex) {
        at++;
        left--;
    }
    if (left < 3 || at[0] != 0x0F || at[2] >> 6 == 3)
        return false;
    return at[1] == 0xB0 || at[1] == 0xB1 || at[1] == 0xC0 || at[1] == 0xC1;
}

/* Whether these bytes belong to the displacement in a call, a jump or a PC-relative access within the program. */
static bool is_distance(const uint8_t *at)
{
    for (unsigned k = 1; k <= 4 && at - k >= nicxi_text_begin; k++) {
        const uint8_t *before = at - k;
        bool has_distance = *before == 0xE8 || *before == 0xE9 || (*before & 0xC7) == 0x05;
        int32_t distance;
        memcpy(&distance, before + 1, sizeof distance);
        uintptr_t to = (uintptr_t)before + 5 + (uintptr_t)(intptr_t)distance;
        if (has_distance && to - (uintptr_t)__executable_start < (uintptr_t)(_end - __executable_start))
            return true;
    }
    return false;
}

/* Returns the name of the barrier or exchange that starts here, or null. */
static const char *named_at(const uint8_t *at, size_t left)
{
    if (BEGINS("\x0F\xAE\xF0"))
        return "mfence";
    if (BEGINS("\x0F\xAE\xF8"))
        return "sfence";
    if (BEGINS("\x0F\xAE\xE8"))
        return "lfence";
    if (BEGINS("\xF0\x83\x0C\x24\x00") || BEGINS("\xF0\x48\x83\x0C\x24\x00"))
        return "lock or";
    if (BEGINS("\xF0\x83\x44\x24\xFC\x00") || BEGINS("\xF0\x48\x83\x44\x24\xFC\x00"))
        return "lock add";
    if (left > 1 && at[0] == 0xF0 && exchanges(at + 1, left - 1))
        return "lock cmpxchg or xadd";
    return NULL;
}

static const char *instruction_at(const uint8_t *at, size_t left)
{
    const char *name = named_at(at, left);
    return name && !is_distance(at) ? name : NULL;
}

enum { STEP = 1 };

#elif defined __aarch64__

/* Instructions are little-endian 32-bit words. */
static const char *instruction_at(const uint8_t *at, size_t left)
{
    if (left < 4)
        return NULL;
    uint32_t word = (uint32_t)at[0] | (uint32_t)at[1] << 8 | (uint32_t)at[2] << 16 | (uint32_t)at[3] << 24;
    if ((word & 0xFFFFF0FF) == 0xD50330BF)
        return "dmb";
    if ((word & 0xFFFFF0FF) == 0xD503309F)
        return "dsb";
    return NULL;
}

enum { STEP = 4 };

#else

static const char *instruction_at(const uint8_t *at, size_t left)
{
    (void)at;
    (void)left;
    return NULL;
}

enum { STEP = 1 };

#endif

const char *nicxi_find_assembly(const void **where)
{
    for (const uint8_t *at = nicxi_text_begin; at < nicxi_text_end; at += STEP) {
        const char *name = instruction_at(at, (size_t)(nicxi_text_end - at));
        if (name) {
            *where = at;
            return name;
        }
    }
    return NULL;
}
