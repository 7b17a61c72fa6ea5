/* The results of decoded instructions (decode.h), computed by the same instructions on registers. The processor
   therefore sets the flags. */
#ifndef DRIVERS_OPERATE_H
#define DRIVERS_OPERATE_H

#include <stdint.h>

#include "decode.h"

#define FLAGS_OF_RESULTS UINT64_C(0x8D5) /* CF, PF, AF, ZF, SF, OF */

/* The operands of an instruction, and then its results. A shift's count is in `from`. */
struct values {
    uint32_t to, from, eax, edx;
    uint64_t flags; /* the bits of FLAGS_OF_RESULTS */
};

void operate(const struct decoded *it, struct values *values);

#endif
