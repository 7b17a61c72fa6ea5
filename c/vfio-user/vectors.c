#define _GNU_SOURCE
#include "vectors.h"

#include "closer.h"
#include "notifier.h"

void vectors_begin(struct vectors *it, unsigned int count, unsigned int owner)
{
    *it = (struct vectors){.count = count < VECTORS_MOST ? count : VECTORS_MOST, .owner = owner};
    for (unsigned int i = 0; i < VECTORS_MOST; i++)
        it->files[i] = -1;
}

void vectors_clear(struct vectors *it)
{
    for (unsigned int i = 0; i < VECTORS_MOST; i++) {
        if (it->files[i] >= 0)
            closer_close(it->files[i], it->owner);
        it->files[i] = -1;
    }
    it->pending = 0;
}

bool vectors_set(struct vectors *it, unsigned int vector, int file)
{
    if (vector >= it->count || (file >= 0 && !notifier_takes(file)))
        return false;
    if (it->files[vector] >= 0)
        closer_close(it->files[vector], it->owner);
    it->files[vector] = file;
    return true;
}

bool vectors_has(const struct vectors *it, unsigned int vector)
{
    return vector < it->count && it->files[vector] >= 0;
}

static bool send_one(struct vectors *it, unsigned int vector)
{
    if (it->files[vector] < 0 || !notifier_send(it->files[vector]))
        return false;
    it->sent[vector]++;
    return true;
}

void vectors_raise(struct vectors *it, unsigned int vector)
{
    if (vector < it->count && !send_one(it, vector))
        it->pending |= UINT64_C(1) << vector;
}

bool vectors_flush_one(struct vectors *it)
{
    for (unsigned int vector = 0; it->pending && vector < it->count; vector++)
        if (it->pending >> vector & 1 && send_one(it, vector)) {
            it->pending &= ~(UINT64_C(1) << vector);
            return true;
        }
    return false;
}
