/* A small driver for the 82599: one queue each way, polled or with one interrupt. It doesn't depend on the bench. */
#ifndef DRIVER_H
#define DRIVER_H

#include <stdbool.h>
#include <stdint.h>

#ifndef ROOM
#define ROOM 2048 /* bytes in a packet; the device uses 2,048 */
#endif
enum { MOST_SLOTS = 512, LONGEST = 1514 };

/* A packet, in memory shared with the device: the driver's header, then the frame. */
struct packet {
    uint64_t bus; /* bus address of `data` */
    uint32_t length;
    uint8_t unused[52];
    uint8_t data[ROOM];
};

/* Sets up the device, with this many slots in each ring. Returns false, and keeps nothing, if memory runs out. */
bool driver_open(const uint8_t address[6], unsigned slots, bool interrupts);
/* Stops the device, and frees all memory. */
void driver_close(void);

/* Returns a packet to send, or null if all are in use. The caller fills in data and length. */
struct packet *driver_packet(void);
/* Takes ownership of a packet and sends it. Returns false if the ring is full: then the caller keeps the packet. */
bool driver_send(struct packet *packet);
/* Takes sent packets back. Returns how many are still in flight. */
unsigned driver_reclaim(void);

/* Returns the next received packet, or null. The caller returns it with driver_release. */
struct packet *driver_receive(void);
void driver_release(struct packet *packet);
/* Returns a packet from driver_packet that isn't sent. */
void driver_discard(struct packet *packet);

/* Enables interrupts again: the device masks the cause when it sends the message. */
void driver_rearm(void);

#endif
