/* Demangles Rust names; other names, and damaged ones, stay as they are. */
#include <stdio.h>
#include <stdlib.h>
#include <string.h>

#include "../engine/demangle.h"

static const struct {
    const char *symbol, *name; /* null: the symbol stays as it is */
} names[] = {
    {"_ZN4race4poll17h0123456789abcdefE", "race::poll"},
    {"_ZN4race4main28_$u7b$$u7b$closure$u7d$$u7d$17h0123456789abcdefE", "race::main::{{closure}}"},
    {"_ZN54_$LT$race..Race$u20$as$u20$nic82599..explore..Scenario$GT$5begin17h0123456789abcdefE", NULL},
    {"_ZN58_$LT$race..Race$u20$as$u20$nic82599..explore..Scenario$GT$5begin17h0123456789abcdefE",
     "<race::Race as nic82599::explore::Scenario>::begin"},
    {"_ZN4race4poll17h0123456789abcdefE.llvm.1234", "race::poll"},
    {"_ZN3std6thread4joinEv", NULL},
    {"_ZNSt6thread4joinEv", NULL},
    {"_RNvC4race4poll", "race::poll"},
    {"_RNvCs1234_4race4poll", "race::poll"},
    {"_RNCNvCs1234_4race4main0B3_", "race::main::{closure#0}"},
    {"_RNCNvCs1234_4race4mains_0B3_", "race::main::{closure#1}"},
    {"_RNvMCs1234_4raceNtB2_6Driver5reset", "<race::Driver>::reset"},
    {"_RNvXCs1234_4raceNtB2_4RaceNtNtC8nic825997explore8Scenario5begin",
     "<race::Race as nic82599::explore::Scenario>::begin"},
    {"_RINvC4race4takehE", "race::take"},
    {"_RINvC4race4takeRNtB2_6DriverAhj4_TtmEE", "race::take"},
    {"_RNvMs_NtCs6GmmlP4bgsG_1r4deepNtB4_6Driver5reset", "<r::deep::Driver>::reset"},
    {"_RNvXs1g_NtCsgEmfK2I1SDS_4core3fmtReNtB6_5Debug3fmtCs6GmmlP4bgsG_1r", "<&_ as core::fmt::Debug>::fmt"},
    {"_RNvC4race4poll.llvm.1234", "race::poll"},
    {"_RNvC4race9poll", NULL},
    {"_RNvNtCslNYArtu3iFV_5alloc7raw_vec12handle_error", "alloc::raw_vec::handle_error"},
    {"_RNvB_4poll", NULL},
    {"_R", NULL},
    {"_ZN", NULL},
    {"_ZN99999999999999999999999999race", NULL},
    {"poll", NULL},
    {"", NULL},
};

int main(void)
{
    enum { COUNT = sizeof names / sizeof *names };
    char room[96];
    for (unsigned k = 0; k < COUNT; k++) {
        bool is_it = nicxi_demangle(names[k].symbol, room, sizeof room);
        if (is_it == !names[k].name || (is_it && strcmp(room, names[k].name) != 0)) {
            printf("%s: %s instead of %s\n", names[k].symbol, is_it ? room : "none",
                   names[k].name ? names[k].name : "none");
            return 1;
        }
    }
    /* demangling must terminate, for each name cut short at any letter or with any letter changed */
    for (unsigned k = 0; k < COUNT; k++)
        for (size_t at = 0; at < strlen(names[k].symbol); at++)
            for (int letter = 0; letter < 128; letter++) {
                char changed[160];
                snprintf(changed, sizeof changed, "%s", names[k].symbol);
                changed[at] = (char)letter;
                char *exact = malloc(strlen(changed) + 1);
                if (!exact)
                    return 1;
                strcpy(exact, changed);
                nicxi_demangle(exact, room, 1 + (size_t)letter % sizeof room);
                free(exact);
            }
    printf("%u names\n", (unsigned)COUNT);
    return 0;
}
