/* The library's version, and whether its device was proved. The Makefile writes out/proved.h; the archive of the plain
   edition contains a mark (plain/kit/c.rs). */
#include "nic82599.h"
#include "proved.h"

const char *nic_version(void)
{
    return NIC82599_VERSION;
}

bool nic_is_proved(void)
{
    return NIC_PROVED;
}

__attribute__((weak)) extern const unsigned char nicl_is_plain;

const char *nic_edition(void)
{
    if (NIC_PROVED)
        return "proved";
    return &nicl_is_plain ? "plain" : "unproved";
}
