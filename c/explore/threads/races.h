/* Data races: two accesses to the same memory by two threads, at least one of them a write, without an order between
   them. Vector clocks show which accesses are ordered. Each thread counts its own time, and learns other threads' times
   where it synchronizes with them: at a lock, an atomic operation, a thread's begin or end, a register, a message, a
   descriptor that the device wrote back. So one schedule shows a race even if the two accesses are far apart in it. */
#ifndef NICX_THREADS_RACES_H
#define NICX_THREADS_RACES_H

#include <stdbool.h>
#include <stddef.h>
#include <stdint.h>

/* Called if accesses are observed: the driver was built with -fsanitize=thread. */
void nicxi_race_open(void);
struct checkpoint;
void nicxi_race_part(struct checkpoint *it);

/* Make the running thread release everything that it did so far to an object, or acquire from the object. */
void nicxi_race_release(const void *object);
void nicxi_race_acquire(const void *object);

enum access { READS = 0, WRITES = 1, ATOMIC = 2 };

/* Notes that the running thread accesses memory at this call. */
void nicxi_race_access(uint64_t at, size_t length, unsigned access, const void *call);
/* The call that led to the running function, or null for the task's first function, or if the caller isn't built with
   -fsanitize=thread. A schedule starts without a call. */
const void *nicxi_called_from(void);
void nicxi_forget_callers(void);
/* Called when memory is allocated again, and when it is freed. */
void nicxi_race_forget(const void *at, size_t length);
void nicxi_race_free(const void *at, size_t length, const void *call);

/* The memory order of an atomic operation. */
enum order { RELAXED = 0, CONSUME, ACQUIRE, RELEASE, BOTH, ALL };
void nicxi_race_load(uint64_t at, int order);
void nicxi_race_store(uint64_t at, int order);
void nicxi_race_exchange(uint64_t at, int order);
void nicxi_race_fence(int order);
/* Notes a pending store (nicxi_keep_own) in this slot, which releases when it reaches memory. */
void nicxi_race_store_late(int slot, int order);
/* Whether other threads may see an address: it is neither on a task's stack nor thread-local. */
bool nicxi_race_is_shared(uint64_t at);

/* Whether an address belongs to the program's thread-local variables, which two threads never share. */
bool nicxi_state_is_local(uint64_t at);

#endif
