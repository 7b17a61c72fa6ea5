/* Separate stacks, and switches between them. */
#ifndef NICX_FIBER_H
#define NICX_FIBER_H

#include <stddef.h>

#if defined(__SANITIZE_ADDRESS__)
#define NICX_ASAN 1
#elif defined(__has_feature)
#if __has_feature(address_sanitizer)
#define NICX_ASAN 1
#endif
#endif

#if !defined(__x86_64__) || defined(NICX_UCONTEXT)
#define NICX_BY_UCONTEXT 1
#include <ucontext.h>
#endif

/* The size of the guard below a stack. The guard is larger than a page, because a function's stack frame may also be
   larger than a page. */
enum { NICX_GUARD = 65536 };

/* `bottom` is the lowest usable byte, just above the guard. The process's own fiber uses the process's stack. */
struct fiber {
    void *top; /* the stack pointer when it was left */
    char *bottom;
    size_t size;
    void *fake; /* for the address sanitizer */
    void (*function)(void *);
    void *argument;
#ifdef NICX_BY_UCONTEXT
    ucontext_t context;
#endif
};

/* Allocates a stack. Returns false if there is no memory. */
int nicxi_fiber_open(struct fiber *fiber, size_t size);
void nicxi_fiber_close(struct fiber *fiber);

/* Makes the fiber start by calling this function, which must not return. Whatever the fiber was doing is abandoned. */
void nicxi_fiber_begin(struct fiber *fiber, void (*function)(void *), void *argument);

/* Continues `to` where it was left. Returns when `from` is switched to again. */
void nicxi_fiber_switch(struct fiber *from, struct fiber *to);

#endif
