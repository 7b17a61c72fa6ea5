/* Data about controllers that the archive doesn't hold, looked up by the controller's pointer. The time of a lookup
   doesn't grow with the number of controllers. The caller holds a lock. */
#ifndef NICL_BY_DEVICE_H
#define NICL_BY_DEVICE_H

#include <stddef.h>

/* The first member of the data about a controller. */
struct nicl_of {
    struct nicl_of *next;
    const void *device;
};

enum { NICL_FIRST_CHAINS = 64 };

/* Empty when zeroed. */
struct nicl_by_device {
    struct nicl_of **chains; /* null: `first` is used */
    size_t room, count;      /* number of chains, 0 for `first`; number of entries */
    struct nicl_of *first[NICL_FIRST_CHAINS];
};

/* Returns the data about a controller, or null. */
struct nicl_of *nicl_by_device_find(const struct nicl_by_device *it, const void *device);
/* Adds an entry with `device` set, and removes one that was added. Neither fails: without memory, chains get longer. */
void nicl_by_device_add(struct nicl_by_device *it, struct nicl_of *one);
void nicl_by_device_remove(struct nicl_by_device *it, struct nicl_of *one);

#endif
