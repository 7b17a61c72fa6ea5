/* The server's lines on standard error, in several kinds. Each client has a limit for each kind, so no client can fill
   a disk or hide reports about other clients. Logging never waits for the reader of standard error. */
#ifndef VFU_LOG_H
#define VFU_LOG_H

#include <stdbool.h>
#include <stdint.h>

#define LOG_AT_ONCE 20          /* lines of one kind about one client in a burst */
#define LOG_A_SECOND 2          /* lines in each second after a burst */
#define LOG_CHECKS_AT_ONCE 2000 /* the burst of --iommu-check, which should show all accesses */

#define LOG_WAIT_MS 250
#define LOG_CLIENTS 16
#define LOG_NOBODY 15u /* the server's own lines; lower numbers are clients, by their sockets */

enum log_kind {
    LOG_SERVER,  /* events of the server itself */
    LOG_CLIENT,  /* clients connecting and leaving */
    LOG_MESSAGE, /* refused requests from clients */
    LOG_ACCESS,  /* driver accesses that the card refuses */
    LOG_FAULT,   /* faults of the device */
    LOG_CHECK,   /* accesses that --iommu-check reports */
    LOG_WIRE,
    LOG_KINDS
};

/* Opens standard error, once, before the process gives up its rights. */
void log_open(void);
/* Print a line, given without its newline: one from the server, or one about a client's action. */
__attribute__((format(printf, 2, 3))) void log_line(enum log_kind kind, const char *format, ...);
__attribute__((format(printf, 3, 4))) void log_client(unsigned int client, enum log_kind kind, const char *format, ...);
/* Returns whether lines are waiting. If so, log_tick should be called after LOG_WAIT_MS milliseconds. */
bool log_is_waiting(void);
/* Reports how many lines were left out, if any were and the limit permits a line again. */
void log_tick(void);
/* Reports how many lines were left out or lost since the last report, and writes the waiting lines, for at most a
   second. */
void log_close(void);

#endif
