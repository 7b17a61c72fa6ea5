/* Gives up the rights that the process doesn't need for serving. An attacker who takes over the process by sending a
   message then gains little. */
#ifndef VFU_CONFINE_H
#define VFU_CONFINE_H

#include <stdbool.h>

/* The process's only task after it is confined. */
enum confine_as {
    CONFINE_SERVER, /* serves open files, and accepts connections */
    CONFINE_CALLER, /* connects UNIX sockets */
    CONFINE_JANITOR /* removes names of sockets */
};

/* Call this before threads start. Programs that the process starts get no new privileges, the process drops its
   capabilities, and (except for a janitor) Landlock denies access to files by name. If the kernel doesn't support one
   of these, a line on standard error says so, and the process continues without it. */
void confine_files(enum confine_as what);
/* Call this after threads started. Only listed system calls are allowed, for all threads; others fail with EPERM. */
void confine_calls(enum confine_as what);

#endif
