/* Shared by the C11 and POSIX thread calls. */
#ifndef NICX_THREADS_THREADS_H
#define NICX_THREADS_THREADS_H

#include "form.h"

struct keys {
    bool is_used[MOST_KEYS];
    void (*destructors[MOST_KEYS])(void *);
};

extern struct keys nicxi_keys; /* restored with the driver's memory */

int nicxi_make_key(pthread_key_t *key, void (*destructor)(void *));
/* A new thread starts with `function`, which may in turn call the driver's function `named`. */
struct creation {
    void *(*function)(void *);
    void *argument;
    const void *named;
    size_t room;
    bool is_detached;
};

int nicxi_create(pthread_t *handle, const struct creation *creation, const char *call, const void *at);
int nicxi_join(pthread_t number, void **result, const char *call, const void *at);
void nicxi_exit_thread(void *result, const char *call, const void *at) __attribute__((noreturn));

/* Stores the requested size of a stack in bytes, or 0 if the attributes don't change the default. */
void nicxi_stack_of(const pthread_attr_t *how, size_t *room);

#endif
