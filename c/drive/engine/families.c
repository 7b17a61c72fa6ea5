/* The families of scenarios. */
#include <stddef.h>

#include "drive.h"

extern struct scenario nicd_kept[];
extern const struct scenario nicd_setup_rows[], nicd_rings[], nicd_frames[], nicd_descriptors[], nicd_write_back[],
    nicd_interrupts[], nicd_rss_rows[], nicd_filters[], nicd_life[], nicd_link[], nicd_link_read[], nicd_counts[],
    nicd_resets[], nicd_changes[], nicd_functions[], nicd_hosts[], nicd_neighbours[];

const struct family nicd_families[] = {
    {"setup", nicd_setup_rows},
    {"rings", nicd_rings},
    {"frames", nicd_frames},
    {"frames", nicd_descriptors},
    {"rings", nicd_write_back},
    {"interrupts", nicd_interrupts},
    {"rss", nicd_rss_rows},
    {"filters", nicd_filters},
    {"life", nicd_life},
    {"link", nicd_link},
    {"link", nicd_link_read},
    {"stats", nicd_counts},
    {"reset", nicd_resets},
    {"changes", nicd_changes},
    {"kept", nicd_kept},
    {"function", nicd_functions},
    {"host", nicd_hosts},
    {"neighbour", nicd_neighbours},
    {NULL, NULL},
};
