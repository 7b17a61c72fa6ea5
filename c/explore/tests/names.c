/* Checks that each register's address is printed as its name and index, as listed in macros.inc (which c/test writes
   from the register table), and any other address as a number. */
#include <stdio.h>
#include <stdlib.h>
#include <string.h>

#include "../engine/names.h"
#include "nic82599.h"

static unsigned reported;

static void expect(const char *got, const char *want)
{
    reported++;
    if (!strcmp(got, want))
        return;
    printf("%s instead of %s\n", got, want);
    exit(1);
}

/* The lists are tables: with one call per line, a compiler would take a minute. */
static const struct {
    const char *text;
    uint32_t address;
} macros[] = {
#define MACRO(macro, address) {#macro, address},
#include "macros.inc"
};
static const uint32_t addresses[] = {
#define ADDRESS(address) address,
#include "addresses.inc"
};

/* Compares with the macros' names in the source, NIC_NAME or NIC_NAME(i). */
static void try_macros(void)
{
    char want[64], got[MOST_NAME];
    for (size_t k = 0; k < sizeof macros / sizeof *macros; k++) {
        snprintf(want, sizeof want, "%s", macros[k].text + strlen("NIC_"));
        char *index = strchr(want, '(');
        if (index) {
            *index = '[';
            want[strlen(want) - 1] = ']';
        }
        expect(nicxi_register(macros[k].address, got), want);
    }
}

/* Each address in the table is a register's first address, or an alias of one. */
static void try_aliases(void)
{
    static const struct {
        uint32_t address;
        const char *name;
        bool is_low;
    } some[] = {{0x00004, "CTRL", false},        {0x00A90, "EICS", true},       {0x00AA0, "EIMS", true},
                {0x00AB0, "EIMC", true},         {0x00AD0, "EIAM", true},       {0x02100, "SRRCTL[0]", false},
                {0x0213C, "SRRCTL[15]", false},  {0x05400, "RAL[0]", false},    {0x0547C, "RAH[15]", false},
                {0x0EC80, "MRQC", false},        {0x0EB7C, "RETA[31]", false},  {0x0EBA4, "RSSRK[9]", false},
                {0x054BC, "PSRTYPE[15]", false}, {0x01014, "SRRCTL[0]", false}, {0x00880, "EIMS", false}};
    char got[MOST_NAME];
    bool is_low;
    for (size_t k = 0; k < sizeof some / sizeof *some; k++) {
        expect(nicxi_register(nicxi_first_address(some[k].address, &is_low), got), some[k].name);
        expect(is_low ? "low" : "whole", some[k].is_low ? "low" : "whole");
    }
    for (size_t k = 0; k < sizeof addresses / sizeof *addresses; k++) {
        nicxi_register(nicxi_first_address(addresses[k], &is_low), got);
        expect(*got == '0' ? "no name" : "a name", "a name");
    }
}

int main(void)
{
    char got[MOST_NAME];
    try_macros();
    try_aliases();
    expect(nicxi_register(0x00004, got), "0x00004");
    expect(nicxi_register(0x01002, got), "0x01002");
    expect(nicxi_register(0x1FFFC, got), "0x1fffc");
    expect(nicxi_offset(NIC_VFMAILBOX, got), "VFMAILBOX");
    expect(nicxi_offset(NIC_VFMBMEM(15), got), "VFMBMEM[15]");
    expect(nicxi_offset(NIC_VFMBMEM(16), got), "0x0240");
    expect(nicxi_offset(NIC_VFRDT(7), got), "VFRDT[7]");
    expect(nicxi_offset(NIC_VFRDT(8), got), "0x1218");
    expect(nicxi_offset(NIC_VFGPTC_OFFSET, got), "VFGPTC");
    printf("%u names\n", reported);
    return 0;
}
