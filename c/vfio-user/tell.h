/* Prints a server's counts. */
#ifndef VFU_TELL_H
#define VFU_TELL_H

#include <stdio.h>

#include "server.h"

void tell_counts(const struct server *it, FILE *to);

#endif
