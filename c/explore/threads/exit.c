/* In a whole program, calls that would end the process end its schedule instead. */
#define _GNU_SOURCE
#include <stdlib.h>
#include <unistd.h>

#include "form.h"

static void may_end(int status)
{
    if (nicxi_program_ends && nicxi_is_ours())
        nicxi_program_ends(status);
}

#define ENDS(name)                                                                                                     \
    void __real_##name(int status) __attribute__((noreturn));                                                          \
    void __wrap_##name(int status) __attribute__((noreturn));                                                          \
    void __wrap_##name(int status)                                                                                     \
    {                                                                                                                  \
        may_end(status);                                                                                               \
        __real_##name(status);                                                                                         \
    }

ENDS(exit)
ENDS(_exit)
ENDS(quick_exit)
