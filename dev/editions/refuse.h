/* The program's malloc, calloc and realloc, which refuse the library's request with a given number. */
#ifndef REFUSE_H
#define REFUSE_H

#include <stdbool.h>
#include <stdint.h>

/* The requests between refuse_begin and refuse_end. */
struct asked {
    long growths; /* number of requests */
    bool is_refused;
    uint64_t order; /* digest of the sizes, in the order of the requests */
    long held;      /* blocks allocated and not freed */
};

/* Starts counting requests, and refuses request `number`, counted from 1; 0 refuses none. */
void refuse_begin(long number);
struct asked refuse_end(void);

#endif
