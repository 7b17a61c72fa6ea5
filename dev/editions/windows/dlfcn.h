/* For dev/editions/events.c on Windows, where the library is linked in: looks up its calls by name, and defines the
   parts of POSIX that the Windows headers lack. */
#ifndef DLFCN_H
#define DLFCN_H

#include <stddef.h>
#include <stdio.h>
#include <sys/types.h>

enum { RTLD_NOW = 0, RTLD_LOCAL = 0 };

/* signals that Windows lacks */
enum { SIGBUS = 0, SIGTRAP = 0 };

void *dlopen(const char *file, int how);
void *dlsym(void *opened, const char *name);
const char *dlerror(void);
ssize_t getdelim(char **text, size_t *room, int end, FILE *file);

#endif
