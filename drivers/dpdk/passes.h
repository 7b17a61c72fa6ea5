/* Passes of frames through the physical function and its virtual functions. */
#ifndef PASSES_H
#define PASSES_H

#include <stdbool.h>
#include <stdint.h>

/* Sends setting.frames frames to and from each of these ports. Checks their bytes, their order on each queue, and their
   hashes. Each received frame must be on the queue that its hash selects, and each sent frame on the queue that it was
   given to. */
void pass(unsigned int first, unsigned int last);

/* Compares the drivers' counters with all passes so far. */
void pass_counters(void);

/* Prints how many frames arrived unchanged each way in all passes, and how many hashes were correct. */
void pass_totals(void);

/* Sends one frame to this address, with a VLAN tag unless `tag` is 0. Returns the number of the port that receives it,
   or -1 if none does. A duplicate, or a frame with different bytes, is a problem. */
int who_gets(const uint8_t to[6], uint16_t tag);

/* Sends one frame from a port to an address. Returns how many frames the device then sends. */
unsigned int send_one(unsigned int which, const uint8_t to[6]);

/* Sends frames to two ports' addresses alternately. Adds the numbers of frames that the first and the second port
   receive to got[0] and got[1]. Any other frame is a problem. */
void frames_of_two(unsigned int frames, unsigned int got[2]);

/* Sends this many frames to a port's address, numbered from `first` in steps of `step`, and runs all receive steps. No
   port is polled. */
void flood(unsigned int which, unsigned int first, unsigned int step, unsigned int frames);

#endif
