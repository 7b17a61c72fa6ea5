/* Checks that the server's loop never sleeps while a client is ready. Because threads close files, a client may become
   ready at any moment, even between two checks in the loop. In this test, after memory was removed, the closer reports
   "full" exactly N times, for each N. The linker replaces the server's own calls (--wrap). */
#define _GNU_SOURCE
#include <poll.h>
#include <sys/mman.h>

#include "../../tests/check.h"
#include "closer.h"
#include "memory_map.h"
#include "nic82599.h"
#include "peer/peer.h"

#define TIMES_MOST 40u /* more checks than the loop makes in two turns */
#define PAGE 4096u
#define REPLY_MS 60000 /* for slow machines: a sleeping server never replies */

bool __wrap_closer_is_full(unsigned int owner);
int __wrap_memory_map_remove(struct memory_map *it, uint64_t address, uint64_t size);
int __real_memory_map_remove(struct memory_map *it, uint64_t address, uint64_t size);

static unsigned int times;
static unsigned int *wanted; /* shared with the server's process */

/* The closer gets files only while a message is served. */
int __wrap_memory_map_remove(struct memory_map *it, uint64_t address, uint64_t size)
{
    times = __atomic_load_n(wanted, __ATOMIC_SEQ_CST);
    return __real_memory_map_remove(it, address, size);
}

bool __wrap_closer_is_full(unsigned int owner)
{
    if (owner != 0 || times == 0)
        return false;
    times--;
    return true;
}

static void is_answered(struct peer *peer)
{
    const struct vfu_access status = {NIC_STATUS, 0, 4};
    uint8_t room[64];
    uint16_t id = peer_send(peer, VFU_REGION_READ, 0, &status, sizeof status, NULL, 0);
    struct pollfd reply = {peer->file, POLLIN, 0};
    CHECK(poll(&reply, 1, REPLY_MS) == 1 && peer_reply(peer, id, room, sizeof room) == 0);
}

int main(void)
{
    static const char *const words[] = {"--quiet", NULL};
    struct peer peer;
    wanted = mmap(NULL, sizeof *wanted, PROT_READ | PROT_WRITE, MAP_SHARED | MAP_ANONYMOUS, -1, 0);
    CHECK(wanted != MAP_FAILED);
    peer_open(&peer, server_start(words));
    CHECK(peer_version(&peer) == 0);
    for (unsigned int i = 0; i <= TIMES_MOST; i++) {
        __atomic_store_n(wanted, i, __ATOMIC_SEQ_CST);
        CHECK(peer_unmap(&peer, 0, PAGE) == 0);
        is_answered(&peer);
    }
    peer_close(&peer);
    server_stop();
    printf("wakes: passed\n");
    return 0;
}
