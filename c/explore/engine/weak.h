/* Weak memory. A processor's stores to lent memory stay pending for a while, and reach memory in any order that keeps
   stores to one location in order. Its loads may return values from before the last changes to memory. A barrier
   flushes stores, or keeps later loads from being older than itself. Each task is a processor, and so is a handler
   beside; a handler on a task runs on the task's processor. Which store reaches memory when, and how old a load is, are
   choices of the schedule like any other.

   In the model `tso`, which is x86's, stores reach memory in program order, and no load is old.

   If the driver's atomic operations are known (threads/tsan.c), its atomic stores to its own memory are pending too, in
   the same list. Loads from own memory are never old.

   The engine keeps a copy of lent memory, and what each change overwrote, so that it knows older values. Every change
   to memory during a schedule goes through this file. */
#ifndef NICX_WEAK_H
#define NICX_WEAK_H

#include "engine.h"

enum given_memory { AS_SCENARIO, STRONG, WEAK, TSO };

/* Sets the memory model from --memory or a schedule's file, for scenarios opened after this call. */
void nicxi_give_memory(enum given_memory given);
/* Changes the model of the open scenario. Returns null, or why that is impossible. */
const char *nicxi_change_memory(enum given_memory memory);
/* The current model; its name: "strong", "weak", "tso". */
enum given_memory nicxi_memory(void);
const char *nicxi_memory_word(enum given_memory memory);

/* Called after the bring-up (returns null, or why it failed), at the end, and before each schedule. */
const char *nicxi_weak_open(void);
void nicxi_weak_close(void);
void nicxi_weak_back(void);

/* Performs a store or a load, by a thread or outside of threads, at the bus address and length in the step. Returns its
   status. */
uint8_t nicxi_store(struct step *step, const uint8_t *bytes);
uint8_t nicxi_load(struct step *step, uint8_t *bytes);

/* Flushes all pending stores of the thread's processor. Returns how many there were. */
uint32_t nicxi_released(const struct thread *thread);
/* Like nicxi_released, but flushes only stores to lent memory. Stores to own memory stay pending, but come before later
   stores. */
uint32_t nicxi_ordered(const struct thread *thread);
/* After this call, no load by the thread's processor is older than this point. */
void nicxi_acquired(const struct thread *thread);
/* Called when a block was lent or taken back: from now on, no processor's load is older than this point. */
void nicxi_memory_moved(uint32_t block);

/* Makes an atomic store of the running thread to its own memory. Returns the store's slot among the pending stores,
   which is passed to nicxi_races->landed when it reaches memory. Returns -1 if the store isn't kept pending, and must
   be made now. If it releases, all earlier stores reach memory before it. */
int nicxi_keep_own(uint64_t at, const void *bytes, uint32_t length, bool releases);
/* Replaces what a load from own memory returns with the thread's own pending store there, if there is one. */
void nicxi_load_own(uint64_t at, void *bytes, uint32_t length);
/* Flushes the stores of the thread's processor to this range of own memory, and all stores that come before them. */
void nicxi_land_own(uint64_t at, uint64_t length);
/* Like nicxi_land_own, but for every processor: the range is about to hold other data. */
void nicxi_land_everywhere(uint64_t at, uint64_t length);

/* Notes that a device step, or one outside of threads, changed memory. */
void nicxi_memory_changed(const struct step *step);

/* The first two return whether an actor is runnable, for a pending store and for an older load. The third makes the
   actor's store reach memory. */
bool nicxi_can_land(const struct actor *actor);
bool nicxi_can_be_older(const struct actor *actor);
void nicxi_land(const struct actor *actor, struct step *step);

/* Whether the copy equals memory; if not, a change to memory wasn't reported. */
bool nicxi_weak_is_exact(void);

#endif
