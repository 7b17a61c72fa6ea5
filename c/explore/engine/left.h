/* Threads that are inside a call when their schedule ends. The stack of a thread in C is simply abandoned. A thread
   whose stack has frames of a language with destructors, such as Rust, announces them. It is resumed once after the
   schedule: each explorer call then returns immediately as a no-op, so the frames can unwind before other threads use
   the stack. */
#ifndef NICX_LEFT_H
#define NICX_LEFT_H

#include <stdbool.h>

/* Sets whether the running thread has frames to unwind; returns the previous setting. A no-op if no thread runs. */
bool nicxi_unwinds(bool it_does);
/* Whether the schedule is over, and the thread runs only to unwind. */
bool nicxi_is_left(void);
/* Leaves the stack for good, after its frames are unwound. Doesn't return. */
void nicxi_unwound(void);

/* Called after the schedule: has each thread with frames unwind them, one thread at a time. */
void nicxi_unwind_all(void);

#endif
