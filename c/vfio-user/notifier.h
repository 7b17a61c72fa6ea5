/* Signals a client's eventfd, and reads it, without ever blocking. A client shares its eventfd's flags and counter with
   the server, so it can clear O_NONBLOCK and fill or empty the counter at any moment; write(2) and read(2) would then
   block. The kernel's own signal at the end of an asynchronous read (io_submit with a result eventfd) never blocks, nor
   does a read with RWF_NOWAIT. */
#ifndef VFU_NOTIFIER_H
#define VFU_NOTIFIER_H

#include <stdbool.h>

/* Prepares the module, once per process. Returns false if the kernel has no asynchronous reads. notifier_send then
   writes when poll reports room in the counter. A client that fills the counter in between blocks the server until a
   signal arrives. */
bool notifier_open(void);
/* Returns whether notifier_takes reads names of files in /proc, because the kernel has no asynchronous reads. */
bool notifier_reads_names(void);
/* Returns whether a file is an eventfd. */
bool notifier_takes(int file);
/* Adds one to an eventfd. Returns false if the file isn't an eventfd. Does nothing if the counter is full, because the
   client then has signals to read. */
bool notifier_send(int file);

enum notifier_taken {
    NOTIFIER_NOTHING,
    NOTIFIER_SIGNALLED,
    NOTIFIER_CANT /* this kernel can't read an eventfd without blocking */
};

/* Reads and clears an eventfd's signals since the last call. */
enum notifier_taken notifier_take(int file);

#endif
