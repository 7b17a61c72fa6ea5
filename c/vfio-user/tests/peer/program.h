/* Runs the program itself, as users run it, in a separate process. */
#ifndef PROGRAM_H
#define PROGRAM_H

#include <stdbool.h>
#include <sys/types.h>

/* Sets the program and the folder of its sockets. */
void program_is(const char *program, const char *folder);
/* Returns `text` followed by the path of this name in the folder. The result stays valid until this process exits. */
const char *program_path(const char *text, const char *name);
/* Starts the program with these arguments, null-terminated. If `before` isn't null, the new process calls it first. Its
   standard error goes to this file, or (-1) nowhere. */
pid_t program_start(const char *const *words, void (*before)(void), int errors);
/* Waits up to a few minutes for its exit. Returns its status, or -1 if a signal ended it. */
int program_status(pid_t process);
/* Ends it with SIGTERM. Returns the same as program_status. */
int program_end(pid_t process);
/* Stops it with SIGSTOP, and waits until it has stopped; SIGCONT continues it. */
void program_stop(pid_t process);
/* Returns whether the process stays asleep for more than a moment. Watches it for up to a few minutes. */
bool program_rests(pid_t process);
/* Returns a number, in this base, from /proc/PID/status; -1 if the file has no such line. */
long long program_number(pid_t process, const char *name, int base);

#endif
