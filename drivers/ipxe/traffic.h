/* Tests iPXE's driver through UEFI's simple network protocol: frames both ways, and other conditions that a driver must
   handle. Each frame is compared byte by byte, and the order is checked. */
#ifndef IPXE_TRAFFIC_H
#define IPXE_TRAFFIC_H

#include <stdint.h>

/* Sets the number of frames each way after each open of the driver. */
void traffic_set(unsigned int frames);

/* Runs all tests on the only network. */
void traffic_run(void);

/* Returns the number of frames that the device is expected to drop. */
uint64_t traffic_drops(void);

#endif
