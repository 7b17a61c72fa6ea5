/* Names for addresses of the process: variables and functions by its symbols, calls by file and line. Used only to
   report a failure, never while schedules are searched. */
#ifndef NICX_SYMBOLS_H
#define NICX_SYMBOLS_H

#include <stdbool.h>
#include <stddef.h>

enum { MOST_FILE = 512, MOST_SYMBOL = 96 };

/* Names the variable or function that covers an address, as "driver" or "driver+0x10". Returns false if none does, as
   for the heap and for stacks. */
bool nicxi_symbol(const void *address, char *room, size_t size);
/* Returns the start of the function that covers an address, or null. */
const void *nicxi_function(const void *address);

/* A call. An instruction in inlined functions has several calls, the innermost first. */
struct source_line {
    char file[MOST_FILE];
    unsigned line;
};

/* Looks up the lines of an instruction with addr2line or llvm-symbolizer. Returns how many were found: 0 if neither is
   installed, or the program has no debug information. */
unsigned nicxi_lines(const void *instruction, struct source_line *lines, unsigned most);

/* Reads a source line, without leading and trailing blanks. Returns false if the file can't be read. */
bool nicxi_source(const struct source_line *line, char *room, size_t size);

/* Ends the program used for the lookups, if it is running. */
void nicxi_symbols_close(void);

#endif
