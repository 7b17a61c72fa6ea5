#include "operate.h"

#include <stdbool.h>

#define CARRY 1u
#define PARITY 4u
#define ZERO 0x40u
#define SIGN 0x80u
#define OVERFLOW 0x800u

/* Runs instructions with these flags, and keeps the flags that they set. The 128 bytes below the stack pointer belong
   to the compiled function, so the flags are pushed below them. */
#define RUN(words)                                                                                                     \
    __asm__ volatile("leaq -128(%%rsp), %%rsp\n pushq %[flags]\n popfq\n " words                                       \
                     "\n pushfq\n popq %[flags]\n leaq 128(%%rsp), %%rsp"                                              \
                     : [to] "+r"(values->to), [from] "+c"(values->from), "+a"(values->eax),                            \
                       "+d"(values->edx), [flags] "+r"(values->flags)                                                  \
                     :                                                                                                 \
                     : "cc", "memory")

/* Whether a condition holds, in the processor's encoding: its lowest bit negates it. */
static bool holds(unsigned int condition, uint64_t flags)
{
    bool is_less = !(flags & SIGN) != !(flags & OVERFLOW);
    bool is_met[] = {
        flags & OVERFLOW, flags & CARRY,  flags & ZERO, flags & (CARRY | ZERO),
        flags & SIGN,     flags & PARITY, is_less,      is_less || flags & ZERO,
    };
    return is_met[condition >> 1] != (condition & 1);
}

void operate(const struct decoded *it, struct values *values)
{
    values->flags &= FLAGS_OF_RESULTS;
    if (it->effects & CHOOSES) {
        values->to = holds(it->condition, values->flags) ? values->from : values->to;
        return;
    }
#define RUN_IF(name, effects, words)                                                                                   \
    case name: RUN(words); break;
    switch (it->operation) {
        OPERATIONS(RUN_IF)
    }
    values->flags &= FLAGS_OF_RESULTS;
}
