/* The MSI-X vectors of a function: the eventfd that signals each vector to its client, and the messages that wait for
   an eventfd. */
#ifndef VFU_VECTORS_H
#define VFU_VECTORS_H

#include <stdbool.h>
#include <stdint.h>

#define VECTORS_MOST 64

struct vectors {
    unsigned int count, owner; /* number of vectors; owner of the files, for closer.h */
    int files[VECTORS_MOST];   /* -1: none */
    uint64_t pending;          /* bit v: a message of vector v is waiting */
    uint64_t sent[VECTORS_MOST];
};

void vectors_begin(struct vectors *it, unsigned int count, unsigned int owner);
/* Closes all files, and discards waiting messages. */
void vectors_clear(struct vectors *it);
/* Sets a vector's file, which the vectors then own, or (-1) removes it. Returns false if the file isn't an eventfd;
   then the caller keeps it. */
bool vectors_set(struct vectors *it, unsigned int vector, int file);
/* Returns whether a vector has a file, so that its client is signalled. */
bool vectors_has(const struct vectors *it, unsigned int vector);
/* Sends a message, or keeps it until its vector has a file. */
void vectors_raise(struct vectors *it, unsigned int vector);
/* Sends one of the waiting messages that can be sent. Returns false if there is none. */
bool vectors_flush_one(struct vectors *it);

#endif
