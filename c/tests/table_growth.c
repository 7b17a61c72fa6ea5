/* Tests the table of callers' memory by itself: compares it with a list of all blocks in random calls, and counts how
   many steps its calls take as blocks, runs and controllers become eight times as many. It is linked with the sources,
   which count their steps (NICL_COUNT_STEPS): no time is measured. */
#include <string.h>

#include "../in_place/starts.h"
#include "../in_place/table.h"
#include "check.h"

/* With eight times as many entries, calls that each search a tree may take up to this many times the steps. */
enum { TIMES = 8, MOST_TIMES = 14 };

unsigned long long nicl_steps;
static void *freed;

void nicl_dealloc(void *piece);
void rattle_dealloc(void *piece);

void rattle_dealloc(void *piece)
{
    freed = piece;
}

/* --- comparison with a list --- */

enum { CONTROLLERS = 3, BLOCKS = 24, SPACE = 40 * NICL_BLOCK, CALLS = 60000 };

static uint8_t space[SPACE];
static uint8_t *hosts[CONTROLLERS][BLOCKS];
static nic controllers[CONTROLLERS];
static struct nicl_table *its[CONTROLLERS];

static bool listed(unsigned c, const uint8_t *at, uint64_t *bus)
{
    for (uint32_t block = 0; block < BLOCKS; block++)
        if (hosts[c][block] && at >= hosts[c][block] && at < hosts[c][block] + NICL_BLOCK) {
            *bus = (uint64_t)block * NICL_BLOCK + (uint64_t)(at - hosts[c][block]);
            return true;
        }
    return false;
}

static bool overlaps(unsigned c, const uint8_t *at, size_t bytes)
{
    for (uint32_t block = 0; block < BLOCKS; block++)
        if (hosts[c][block] && hosts[c][block] < at + bytes && at < hosts[c][block] + NICL_BLOCK)
            return true;
    return false;
}

/* Half of the memory begins at a multiple of 2,048 bytes, half elsewhere. */
static uint8_t *somewhere(uint32_t blocks)
{
    uint32_t at = below(SPACE - blocks * NICL_BLOCK);
    return space + (below(2) ? at : at / NICL_BLOCK * NICL_BLOCK);
}

static void lend(unsigned c)
{
    uint32_t first = below(BLOCKS), end = first + 1 + below(BLOCKS - first);
    uint8_t *at = somewhere(end - first);
    size_t bytes = (size_t)(end - first) * NICL_BLOCK;
    CHECK(nicl_table_has_bytes(its[c], at, bytes) == overlaps(c, at, bytes));
    if (overlaps(c, at, bytes))
        return;
    for (uint32_t block = first; block < end; block++)
        if (hosts[c][block])
            return;
    its[c] = nicl_table_with(&controllers[c], first, end, at);
    CHECK(its[c] && its[c] == nicl_table_of(&controllers[c]));
    for (uint32_t block = first; block < end; block++)
        hosts[c][block] = at + (size_t)(block - first) * NICL_BLOCK;
}

static void unlend(unsigned c)
{
    uint32_t first = below(BLOCKS), end = first;
    while (end < BLOCKS && hosts[c][end] && below(8))
        hosts[c][end++] = NULL;
    if (first < end)
        nicl_table_remove(its[c], first, end);
}

static void finish(unsigned c)
{
    if (!its[c])
        return;
    nicl_table_close(its[c]);
    CHECK(!nicl_table_of(&controllers[c]));
    nicl_table_end(its[c]);
    its[c] = NULL;
    memset(hosts[c], 0, sizeof hosts[c]);
}

static void look(void)
{
    uint8_t *at = space + below(SPACE);
    uint64_t bus = 0, want = 0;
    bool is_callers = false;
    for (unsigned c = 0; c < CONTROLLERS; c++) {
        bool is_there = listed(c, at, &want);
        CHECK(nicl_table_bus_of(its[c], (uintptr_t)at, &bus) == is_there && (!is_there || bus == want));
        is_callers |= is_there;
    }
    freed = NULL;
    nicl_dealloc(at);
    CHECK((freed == NULL) == is_callers);
}

static void beside_a_list(void)
{
    for (unsigned c = 0; c < CONTROLLERS; c++)
        controllers[c].device = space + c;
    for (unsigned call = 0; call < CALLS; call++) {
        unsigned c = below(CONTROLLERS), kind = below(100);
        if (kind < 40)
            lend(c);
        else if (kind < 70)
            unlend(c);
        else if (kind == 99)
            finish(c);
        look();
    }
    for (unsigned c = 0; c < CONTROLLERS; c++)
        finish(c);
    CHECK(nicl_starts_is_empty());
}

/* --- growing tables --- */

enum order { UP, DOWN, APART };

/* Returns the address of a block's memory; nothing is read there. */
static uint8_t *host_of(uint32_t block, uint32_t blocks, enum order order)
{
    uintptr_t at = order == DOWN ? blocks - block : order == APART ? 3 * (uintptr_t)block : block;
    return (uint8_t *)(uintptr_t)(UINT64_C(0x10000000) + at * NICL_BLOCK);
}

/* Counts the steps to lend blocks singly, find each, and take each back, in the same order. */
static unsigned long long of_blocks(uint32_t blocks, enum order order)
{
    nic n = {space};
    struct nicl_table *it = NULL;
    uint64_t bus;
    nicl_steps = 0;
    for (uint32_t block = 0; block < blocks; block++) {
        uint8_t *host = host_of(block, blocks, order);
        CHECK(!nicl_table_has_bytes(nicl_table_of(&n), host, NICL_BLOCK));
        it = nicl_table_with(&n, block, block + 1, host);
        CHECK(it && nicl_table_bus_of(it, (uintptr_t)host + 5, &bus) && bus == (uint64_t)block * NICL_BLOCK + 5);
    }
    for (uint32_t block = 0; block < blocks; block++)
        nicl_table_remove(it, block, block + 1);
    nicl_table_close(it);
    nicl_table_end(it);
    return nicl_steps;
}

/* Counts the steps of controllers that each lend a common or a separate block, take it back and lend it again, and the
   steps of freeing memory next to it. */
static unsigned long long of_controllers(uint32_t controllers, enum order order)
{
    static nic n[4096];
    static uint8_t devices[4096][16];
    nicl_steps = 0;
    for (uint32_t c = 0; c < 2 * controllers; c++) {
        nic *it = &n[c % controllers];
        uint8_t *host = order == APART ? host_of(c % controllers, controllers, order) : host_of(0, 1, UP) + 8;
        it->device = devices[c % controllers];
        if (c >= controllers)
            nicl_table_remove(nicl_table_of(it), 0, 1);
        CHECK(nicl_table_with(it, 0, 1, host));
        nicl_dealloc(host - 1);
        nicl_dealloc(host + NICL_BLOCK);
    }
    for (uint32_t c = 0; c < controllers; c++) {
        struct nicl_table *it = nicl_table_of(&n[c]);
        nicl_table_close(it);
        nicl_table_end(it);
    }
    return nicl_steps;
}

static void grows(const char *what, unsigned long long few, unsigned long long many)
{
    if (many <= MOST_TIMES * few)
        return;
    fprintf(stderr, "%s: %llu steps, but with %d times as many: %llu steps\n", what, few, TIMES, many);
    exit(1);
}

int main(void)
{
    beside_a_list();
    grows("blocks at rising addresses", of_blocks(4096, UP), of_blocks(TIMES * 4096, UP));
    grows("blocks at falling addresses", of_blocks(4096, DOWN), of_blocks(TIMES * 4096, DOWN));
    grows("blocks that aren't consecutive", of_blocks(4096, APART), of_blocks(TIMES * 4096, APART));
    grows("controllers with the same memory", of_controllers(512, UP), of_controllers(TIMES * 512, UP));
    grows("controllers with separate memory", of_controllers(512, APART), of_controllers(TIMES * 512, APART));
    puts("steps don't grow faster than blocks and controllers do");
    return 0;
}
