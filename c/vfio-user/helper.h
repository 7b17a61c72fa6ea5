/* A helper process, for work that this process may not do while it serves, or must not wait for. The helper starts as a
   copy of this process, keeps its end of a line and at most one file, and should end when the line is closed. */
#ifndef VFU_HELPER_H
#define VFU_HELPER_H

#include <stdbool.h>
#include <sys/types.h>

#include "confine.h"

struct helper {
    pid_t process; /* -1: none */
    int line;      /* carries whole messages, both ways; -1: none */
};

struct helper_job {
    enum confine_as what;
    bool is_confined;
    bool stays; /* if a signal ends this process, the helper first finishes its work */
    int file;   /* -1: none */
    /* the helper's work; when it returns, the process exits */
    void (*work)(int line, int file, void *given);
    void *given;
};

/* Starts it. Returns false with errno set if it can't. */
bool helper_start(struct helper *it, const struct helper_job *job);
/* Closes the line and, if `waits`, waits until the process has exited. */
void helper_end(struct helper *it, bool waits);

#endif
