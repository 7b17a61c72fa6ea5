/* Checks that the register macros have the addresses in the table: MACRO(value, address) in a list that c/test
   writes. */
#include "check.h"

int main(void)
{
    unsigned count = 0;
#define MACRO(value, address)                                                                                          \
    CHECK((value) == (address));                                                                                       \
    count++;
#include "macros.inc"
    printf("%u addresses\n", count);
    return 0;
}
