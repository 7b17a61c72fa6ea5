/* A UNIX socket with a name, accessible only to its user (mode 0600). A new socket takes a name only if the name is
   free or belongs to a dead socket of this user. When the socket is closed, the name is removed only if it still
   belongs to this socket. */
#ifndef VFU_LOCAL_SOCKET_H
#define VFU_LOCAL_SOCKET_H

#include <stdbool.h>
#include <stddef.h>
#include <sys/socket.h>
#include <sys/types.h>
#include <sys/un.h>
#include <time.h>

#define LOCAL_REST_MS 100
#define LOCAL_PATH_MOST sizeof(((struct sockaddr_un *)0)->sun_path) /* bytes of a name, with its zero byte */

/* A bound name, and what identifies the socket that was bound to it. */
struct local_given {
    char path[LOCAL_PATH_MOST]; /* empty: none */
    dev_t device;
    ino_t inode;
    struct timespec made; /* inode numbers are soon reused */
};

/* Converts a name to a socket address. Returns false if the name is too long. */
bool local_name(struct sockaddr_un *name, const char *path);

/* Creates a non-blocking socket of this type and binds it to the name. Returns null and sets *file; or returns the
   reason for its failure, sets *file to -1, and changes nothing. */
const char *local_bind(int *file, int type, const char *path);
/* Like local_bind for a stream; it also listens. */
const char *local_listen(int *file, const char *path, int backlog);
/* Connects to a stream without blocking. Returns -1 if no process listens, or the listener's backlog is full. */
int local_connect(const char *path);
/* Accepts a connection that waits at a listener, or returns -1. If the process has no file descriptor left for it, all
   listeners rest for LOCAL_REST_MS. */
int local_accept(int listener);
bool local_rests(void);
/* Adds a name that another process bound and this process will remove. Returns false if there is no room. */
bool local_adopt(const struct local_given *given);
/* Remove one name, or all names, if they still belong to the sockets bound to them. */
void local_forget(const char *path);
void local_forget_all(void);

#endif
