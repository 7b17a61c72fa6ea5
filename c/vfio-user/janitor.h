/* A process that removes the names of this process's sockets after this process has exited for any reason. The server
   itself can no longer access files at that time. */
#ifndef VFU_JANITOR_H
#define VFU_JANITOR_H

#include <stdbool.h>

struct local_given;

/* Starts the janitor. Call this early, because the janitor is a copy of this process. Returns false with errno set if
   it can't. */
bool janitor_start(bool is_confined);
/* Adds a name for the janitor to remove. No-op if the janitor wasn't started. */
void janitor_adopt(const struct local_given *given);
/* Makes the janitor accept no more names, so that an attacker in this process can't make it remove other files. */
void janitor_seal(void);
/* Starts the janitor's work, and waits until it is done. */
void janitor_finish(void);

#endif
