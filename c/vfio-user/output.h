/* A file that is written without waiting for its reader. If a pipe, a terminal or a socket accepts no more, whole
   records, never parts, are lost and counted. A file on a disk accepts everything. */
#ifndef VFU_OUTPUT_H
#define VFU_OUTPUT_H

#include <stdbool.h>
#include <stddef.h>
#include <stdint.h>
#include <stdio.h>

#include "buffer.h"

#define OUTPUT_KEPT (256u << 10) /* maximum number of bytes that wait for a reader */

struct output {
    int file; /* -1: none */
    bool is_socket, waits;
    struct buffer kept;
    uint64_t lost; /* number of lost records */
    int error;     /* error of errno.h after which nothing more is written; 0: none */
};

/* Creates the file with this name, or truncates it. Returns false with errno set if it can't (ENXIO: a FIFO without a
   reader). */
bool output_create(struct output *it, const char *name);
/* Begins output to a file that this process already has open, such as standard error. The file's flags, which other
   processes share, don't change. */
void output_begin(struct output *it, int file);
/* Writes, keeps, or loses a record. */
void output_put(struct output *it, const void *bytes, size_t length);
/* Writes the kept bytes as far as possible. */
void output_flush(struct output *it);
/* Writes the kept bytes as far as possible in this many milliseconds, and closes the file unless it was passed to
   output_begin. */
void output_end(struct output *it, int milliseconds);
/* Returns a stream that makes each line a record of the output; null if memory runs out. */
FILE *output_stream(struct output *it);

#endif
