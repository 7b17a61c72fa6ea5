/* A process that connects the wire's socket by its name. While the server serves, it may not connect sockets, and must
   not wait for a path lookup: the wire's other end could make the path lead into a file system that doesn't answer. The
   connecting process connects only to the names that it was started with. */
#ifndef VFU_CONNECTOR_H
#define VFU_CONNECTOR_H

#include <stdbool.h>
#include <stdint.h>

#include "helper.h"

#define CONNECTOR_AGAIN_MS 300 /* time between two attempts */

struct connector {
    struct helper helper;
    bool is_asked;  /* a request is waiting for its answer */
    uint64_t asked; /* time of the last request, by budget_time */
};

/* Initializes a connector without a process. */
void connector_begin(struct connector *it);
/* Starts the process, for a stream to this path. Returns false with errno set if it can't. */
bool connector_start_stream(struct connector *it, const char *path, bool is_confined);
/* Starts the process for datagrams. It connects the socket, which has its own name, to the peer repeatedly, because
   another program may take over the peer's name. */
bool connector_start_datagrams(struct connector *it, int file, const char *peer, bool is_confined);
void connector_end(struct connector *it);

/* Requests a stream, unless it is too early for another request. */
void connector_ask(struct connector *it);
/* Returns the file to poll for an answer; -1 if no request is pending. */
int connector_file(const struct connector *it);
/* Returns the connected stream, which the caller then owns; -1 if no answer has arrived yet, or the socket has no
   listener. */
int connector_take(struct connector *it);
/* Like connector_take, but waits up to a second, and works for datagrams too. Called when the server starts. */
int connector_wait(struct connector *it);
/* Returns the milliseconds until the next request is allowed; -1 if an answer is pending or no process was started. */
int connector_patience(const struct connector *it);

#endif
