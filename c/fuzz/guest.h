/* A server of c/vfio-user in a thread of this process, and its guests, one at a time. Each sends the messages in an
   input, and ends when the server has served them and closed the connection. A thread reads the replies. The server
   continues, because opening its card takes a second, so an input may depend on earlier inputs. */
#ifndef FUZZ_GUEST_H
#define FUZZ_GUEST_H

#include <stddef.h>
#include <stdint.h>

#include "protocol.h"

#define GUEST_BYTES (64u * 4096) /* size of the guest's memory, which is a file */
#define GUEST_FILES 4

struct guest {
    int socket, memory_file;
    uint8_t *memory;
    uint16_t id;
};

/* A guest's actions. `given` is guest_run's argument. */
typedef void guest_acts(struct guest *it, void *given);

/* Runs a guest. The first one starts the server, with these additional null-terminated arguments. */
void guest_run(const char *const *words, guest_acts *acts, void *given);

/* Sends a message with this many files, which the caller keeps. If the server has closed the connection, the
   message is lost. */
void guest_send(struct guest *it, uint16_t command, uint32_t flags, const void *body, size_t length, const int *files,
                unsigned int count);
/* Sends the version, and maps the guest's memory at address 0. */
void guest_greet(struct guest *it);
/* Writes a word to a register of region 0, without a reply. */
void guest_write(struct guest *it, uint32_t offset, uint32_t word);

#endif
