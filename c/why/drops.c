#define _POSIX_C_SOURCE 200809L
#include "drops.h"

#include <pthread.h>
#include <stdlib.h>
#include <string.h>

#include "../in_place/by_device.h"

struct dropped {
    struct nicl_of of; /* an unused entry in the pool if its device is null */
    struct nicl_drops drops;
};

/* Held to change or read the drops of any controller. */
static pthread_mutex_t lock = PTHREAD_MUTEX_INITIALIZER;
static struct nicl_by_device all;
/* Number of entries, read whenever a controller is closed. */
static size_t all_count;

/* This many controllers that drop frames need no allocation, so their counts are right even if memory runs out. */
enum { POOL = 64 };
static struct dropped pool[POOL];
static unsigned pooled;

static struct dropped *take(void)
{
    for (unsigned k = 0; pooled < POOL && k < POOL; k++)
        if (!pool[k].of.device) {
            memset(&pool[k], 0, sizeof pool[k]);
            pooled++;
            return &pool[k];
        }
    return calloc(1, sizeof(struct dropped));
}

static void give_back(struct dropped *it)
{
    for (unsigned k = 0; k < POOL; k++)
        if (it == &pool[k]) {
            it->of.device = NULL;
            pooled--;
            return;
        }
    free(it);
}

void nicl_drops_hold(void)
{
    pthread_mutex_lock(&lock);
}

void nicl_drops_let_go(void)
{
    pthread_mutex_unlock(&lock);
}

/* Returns the drops of a controller, or null. */
static struct dropped *of(const nic *n)
{
    return (struct dropped *)nicl_by_device_find(&all, n->device);
}

static struct dropped *made(const nic *n)
{
    struct dropped *it = take();
    if (!it)
        return NULL;
    it->of.device = n->device;
    nicl_by_device_add(&all, &it->of);
    __atomic_store_n(&all_count, all.count, __ATOMIC_RELAXED);
    return it;
}

unsigned nicl_drop_kind(uint8_t why, const uint8_t *frame)
{
    static const uint8_t all[6] = {0xff, 0xff, 0xff, 0xff, 0xff, 0xff};
    if (why != NIC_WHY_FILTER)
        return why < NICL_TO_MANY ? why : 0;
    if (!memcmp(frame, all, sizeof all))
        return NICL_TO_ALL;
    return frame[0] & 1 ? NICL_TO_MANY : NIC_WHY_FILTER;
}

static void count(struct nicl_drops *it, unsigned kind, const uint8_t *frame, size_t length)
{
    it->count[kind]++;
    it->length[kind] = length;
    memset(it->to[kind], 0, sizeof it->to[kind]);
    if (length >= sizeof it->to[kind])
        memcpy(it->to[kind], frame, sizeof it->to[kind]);
}

void nicl_note_drop(const nic *n, uint8_t why, const uint8_t *frame, size_t length)
{
    nicl_drops_hold();
    struct dropped *it = of(n);
    if (!it)
        it = made(n);
    if (it)
        count(&it->drops, nicl_drop_kind(why, frame), frame, length);
    nicl_drops_let_go();
}

void nicl_forget_drops(const nic *n)
{
    if (!__atomic_load_n(&all_count, __ATOMIC_RELAXED)) /* usually there are none, so no call waits for the lock */
        return;
    nicl_drops_hold();
    struct dropped *it = of(n);
    if (it) {
        nicl_by_device_remove(&all, &it->of);
        __atomic_store_n(&all_count, all.count, __ATOMIC_RELAXED);
        give_back(it);
    }
    nicl_drops_let_go();
}

bool nicl_drops_of(const nic *n, struct nicl_drops *drops)
{
    nicl_drops_hold();
    const struct dropped *it = of(n);
    if (it)
        *drops = it->drops;
    else
        memset(drops, 0, sizeof *drops);
    nicl_drops_let_go();
    return it;
}
