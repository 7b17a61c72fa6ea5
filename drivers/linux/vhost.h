/* The far end of Linux's virtio_uml driver: a vhost-user device over a unix socket, with split rings. All notifications
   go through the socket. A User-Mode Linux uses it as its PCI bus. */
#ifndef LINUX_VHOST_H
#define LINUX_VHOST_H

#include <stdbool.h>
#include <stddef.h>
#include <stdint.h>

#define VHOST_RINGS 2
#define VHOST_MESSAGE 4096 /* maximum length of a guest's message in bytes */

struct vhost_ring {
    uint32_t slots;
    uint64_t descriptors, available, used; /* guest physical addresses */
    uint16_t taken, given;                 /* ring indices, modulo 65,536 */
    bool is_on;
};

struct vhost {
    int listener, socket, calls; /* file descriptors; -1: none */
    struct vhost_ring rings[VHOST_RINGS];
    void (*kicked)(void *owner, unsigned int ring); /* called when the guest has added entries to a ring */
    void *owner;
};

/* A message from the guest, and the buffer for the reply. */
struct vhost_chain {
    uint16_t head;
    size_t out_length, in_length;
    uint8_t *in; /* in the guest's memory; null: no reply wanted */
    uint8_t out[VHOST_MESSAGE];
};

/* Returns the address of `length` bytes of the guest's memory in this process, or null if they aren't in it. */
void *vhost_memory(uint64_t address, uint64_t length);

/* Return the first address of the guest's memory and its length in bytes; 0 until the guest has reported it. */
uint64_t vhost_memory_first(void);
uint64_t vhost_memory_bytes(void);

/* Listens for a guest at this path. Returns false and reports a problem if it can't. */
bool vhost_listen(struct vhost *vhost, const char *path);
bool vhost_accept(struct vhost *vhost);
void vhost_close(struct vhost *vhost);

/* Serves one request from the guest. Returns false if the connection has ended. A malformed request is reported as a
   problem. */
bool vhost_serve(struct vhost *vhost);

/* Takes the next entry that the guest put into a ring. Returns false if there is none. */
bool vhost_take(struct vhost *vhost, unsigned int ring, struct vhost_chain *chain);
/* Returns an entry to the guest, with the number of bytes written. */
void vhost_give(struct vhost *vhost, unsigned int ring, const struct vhost_chain *chain, uint32_t written);
/* Interrupts the guest for a ring. */
void vhost_call(struct vhost *vhost, unsigned int ring);

#endif
