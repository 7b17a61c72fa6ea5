/* The command line. */
#ifndef VFU_OPTIONS_H
#define VFU_OPTIONS_H

#include <stdbool.h>
#include <stdint.h>

#include "card.h"
#include "wire.h"

#define OPTIONS_TEXT 512

struct options {
    const char *socket_path; /* null if `file` is used */
    int file;                /* an open socket, of a client or listening; -1: none */
    uint16_t device;
    struct card_options card;
    struct wire_options wire;
    const char *strays, *trace, *record, *control; /* names of files, or null */
    uint64_t client_memory;                        /* bytes that each client may map; 0: as much as the machine has */
    bool is_quiet;
    bool trusts_files;            /* any file may be a client's memory */
    bool is_unconfined;           /* the process keeps its rights */
    char wire_text[OPTIONS_TEXT]; /* storage for the wire's paths */
};

enum options_status { OPTIONS_GO, OPTIONS_END, OPTIONS_WRONG };

/* Reads the command line. OPTIONS_END: the requested output (help, version) is printed, and nothing remains to be done.
   OPTIONS_WRONG: a line on standard error says what is wrong. */
enum options_status options_read(struct options *it, int count, char **words);

#endif
