#include <errno.h>
#include <stdlib.h>
#include <string.h>

#include "../calls.h"
#include "dlfcn.h"

struct named {
    const char *name;
    void (*call)(void);
};

#define NAMED(name) {#name, (void (*)(void))name},
static const struct named all[] = {CALLS(NAMED)};

void *dlopen(const char *file, int how)
{
    (void)file, (void)how;
    return (void *)all;
}

const char *dlerror(void)
{
    return "the library is linked in";
}

void *dlsym(void *opened, const char *name)
{
    (void)opened;
    for (size_t k = 0; k < sizeof all / sizeof *all; k++)
        if (strcmp(all[k].name, name) == 0)
            return *(void **)&all[k].call;
    return NULL;
}

ssize_t getdelim(char **text, size_t *room, int end, FILE *file)
{
    size_t used = 0;
    int c;
    while ((c = getc(file)) != EOF) {
        if (used + 1 >= *room) {
            *room = *room ? 2 * *room : 4096;
            *text = realloc(*text, *room);
            if (!*text)
                return -1;
        }
        (*text)[used++] = (char)c;
        if (c == end)
            break;
    }
    if (used)
        (*text)[used] = 0;
    return used ? (ssize_t)used : -1;
}
