/* Requests from virtual functions to the PF's driver, and the PF driver's actions that affect virtual functions. */
#ifndef REQUESTS_H
#define REQUESTS_H

#include <stdint.h>

/* Checks which port receives frames to each address, after each request from a virtual function and each action of the
   PF's driver. */
void requests(void);

/* Checks the differences between bench and card for a physical function with virtual functions. Returns how many frames
   are dropped in the process. */
uint64_t limits(void);

/* Checks that each mailbox request made during the passes was answered and acknowledged. */
void requests_tell(void);

#endif
