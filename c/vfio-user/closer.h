/* Closes files received from clients, in separate threads. Closing the last descriptor for a gigabyte of memory takes a
   while. Closing a foreign file (on a FUSE file system, a terminal, a network connection) can take as long as its owner
   likes. Each owner's foreign files have their own thread, so they don't wait for another owner's files. Files in
   kernel memory don't wait for any foreign file. Sockets count as foreign because their other end may have sent files
   that were never received. So do eventfds, because a process that watches one with epoll can delay its close. */
#ifndef VFU_CLOSER_H
#define VFU_CLOSER_H

#include <stdbool.h>
#include <stddef.h>
#include <sys/types.h>

#define CLOSER_OWNERS 16
#define CLOSER_WIRE 15u        /* the owner of files from the wire's other end; lower numbers are clients */
#define CLOSER_FOREIGN_MOST 32 /* maximum number of an owner's waiting files before its client has to wait */
#define CLOSER_OWN_MOST 32

/* Starts the threads, once per process. Returns false with errno set if it can't. Before that, files are closed
   directly. */
bool closer_start(void);
/* Returns whether a file is the kernel's own memory (memfd, tmpfs, hugetlbfs). Never waits for a file system. */
bool closer_is_memory(int file);
/* Closes a file received from an owner, a number below CLOSER_OWNERS. */
void closer_close(int file, unsigned int owner);
void closer_close_foreign(int file, unsigned int owner);
/* Receives bytes like recv. Closes any files that arrive with the bytes, as closer_close does. */
ssize_t closer_receive(int file, void *bytes, size_t room, int flags, unsigned int owner);
/* Returns whether an owner has too many files waiting, so that its client has to wait and no other is accepted. */
bool closer_is_full(unsigned int owner);
/* Waits until the files of kernel memory are closed, for tests. */
void closer_settle(void);

#endif
