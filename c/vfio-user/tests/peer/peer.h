/* A vfio-user client for tests, and a server for it in a separate process. */
#ifndef PEER_H
#define PEER_H

#include <stdbool.h>
#include <stddef.h>
#include <stdint.h>
#include <sys/types.h>

#include "protocol.h"

struct peer {
    int file;
    uint16_t id;
};

/* Starts a server with these arguments, null-terminated, in addition to the argument for its socket. Returns the
   socket's name. */
const char *server_start(const char *const *words);
/* Ends the server with SIGTERM, and checks that its exit status is 0. */
void server_stop(void);
pid_t server_process(void);

/* Connects to the server, even if it is just starting. */
void peer_open(struct peer *it, const char *path);
void peer_close(struct peer *it);

/* Sends a message. Returns its number. */
uint16_t peer_send(struct peer *it, uint16_t command, uint32_t flags, const void *body, size_t length, const int *files,
                   unsigned int count);
/* Sends a message with `size` in its header, or (0) with its actual size. Returns false if the server has hung up. */
bool peer_try(struct peer *it, uint16_t command, uint32_t flags, const void *body, size_t length, const int *files,
              unsigned int count, uint32_t size);
/* Receives a reply, with up to `room` bytes of its body. Returns the error in the reply. */
uint32_t peer_reply(struct peer *it, uint16_t id, void *body, size_t room);
/* Sends a message and receives its reply. */
uint32_t peer_ask(struct peer *it, uint16_t command, const void *body, size_t length, const int *files,
                  unsigned int count, void *reply, size_t room);

/* Access registers of region 0: a read waits for the reply, a write doesn't. */
uint32_t peer_read(struct peer *it, uint32_t offset);
void peer_write(struct peer *it, uint32_t offset, uint32_t word);
uint32_t peer_config(struct peer *it, uint32_t offset, uint32_t count);
void peer_set_config(struct peer *it, uint32_t offset, uint32_t count, uint32_t word);
/* Maps `bytes` of a file at an address. Returns the error. */
uint32_t peer_map(struct peer *it, uint64_t address, uint64_t bytes, uint64_t offset, uint32_t flags, int file);
uint32_t peer_unmap(struct peer *it, uint64_t address, uint64_t bytes);
uint32_t peer_version(struct peer *it);
/* Sets the files of vectors, starting with `first`. */
uint32_t peer_vectors(struct peer *it, uint32_t first, uint32_t count, const int *files, unsigned int file_count);

/* Connects a stream to a control socket, or to a listening wire, even while its server is just starting. */
int peer_stream(const char *path);
/* Send a request to the control socket, receive its whole answer (valid until the next answer), or do both. */
void peer_send_request(int control, const char *words);
const char *peer_answer(int control);
const char *peer_request(int control, const char *words);
/* Returns the number that follows these words in the answer to `counts`. */
uint64_t peer_count(int control, const char *words);
/* Receives the next whole frame on a wire, waiting up to this many milliseconds. Returns its length; 0 if none
   arrived. */
size_t peer_frame(int wire, uint8_t *frame, size_t room, int milliseconds);
/* Sends a frame on a wire. Returns false if the wire accepts no more now. */
bool peer_put_frame(int wire, const uint8_t *frame, size_t length);

#endif
