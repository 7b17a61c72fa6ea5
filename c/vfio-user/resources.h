/* Divides the files, mappings and addresses that this process may have among its clients, so that no client takes
   another client's share. */
#ifndef VFU_RESOURCES_H
#define VFU_RESOURCES_H

#include <stdbool.h>
#include <stdint.h>

/* Raises the limit for open files to the hard limit (ulimit -Hn), and limits the memory of each client to `bytes`, or
   (0) to as much as the machine has. `vectors` is the total number of the clients' vectors. If there are too few files,
   prints how many are needed and returns false. */
bool resources_share(unsigned int clients, unsigned int vectors, uint64_t bytes, bool trusts_files);

#endif
