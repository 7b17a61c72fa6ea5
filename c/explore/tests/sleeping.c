/* Checks that the exhaustive search reaches the same final states with sleep sets as without. Compares, for random
   scenarios, what the driver saw and the device's state at the end of each schedule. `sleeping SCENARIOS SEED MODE..`,
   with these modes: `vf`: the queue and the driver belong to a virtual function. `apart`: the tasks share nothing but a
   lock and what it protects, and the scenario says that it is race-free. `seen`: each access to the driver's memory is
   observed. `weak`: memory is weak. `three`, `four`: this many transmit queues; a write wakes all queues in the search
   without sleep sets, but only its own queue in the search with sleep sets. */
#include <stdio.h>
#include <stdlib.h>
#include <string.h>

#include "../engine/chance.h"
#include "../engine/exhaustive.h"
#include "../engine/options.h"
#include "corpus.h"

enum { MOST_ENDS = 1 << 16, LENGTH = 3, TWO = 2, MOST_RUNS = 12000 };

static struct chance chance;
static uint8_t doings[TWO][LENGTH];
static bool has_handler, has_function, is_apart, is_seen;
static unsigned queues = 1;
static nicx_mutex lock;
static uint64_t shared;
static uint64_t seen[TWO + 1];
static uint64_t ends[MOST_ENDS];
static uint32_t end_count;

/* --- a random driver; each thread keeps a hash of what it saw, in order --- */

/* Reports accesses to the driver's own memory, as instrumented code does. */
static void tell(const void *place, size_t size, bool writes)
{
    if (is_seen)
        nicxi_touched(place, size, writes);
}

static void count_in_lock(uint64_t *sum)
{
    nicx_lock(&lock);
    tell(&shared, sizeof shared, true);
    *sum = chance_mixed(*sum, ++shared);
    nicx_unlock(&lock);
}

/* With several queues, values of QUEUED and above select one of ON_QUEUE actions on one of MOST_QUEUES queues. */
enum { QUEUED = 64, MOST_QUEUES = 4, ON_QUEUE = 5 };

static void act_on_queue(unsigned who, unsigned doing)
{
    uint64_t *sum = &seen[who];
    unsigned queue = doing % MOST_QUEUES;
    switch (doing / MOST_QUEUES) {
    case 0: *sum = chance_mixed(*sum, nicx_read32(NIC_TDH(queue))); break;
    case 1: nicx_write32(NIC_TDT(queue), 1); break;
    case 2: nicx_write32(NIC_TXDCTL(queue), 0); break;
    case 3: nicx_write32(NIC_TXDCTL(queue), ENABLE); break;
    default: *sum = chance_mixed(*sum, nicx_read32(NIC_TXDCTL(queue))); break;
    }
    tell(sum, sizeof *sum, true);
}

static void act(unsigned who, uint8_t doing)
{
    uint64_t *sum = &seen[who];
    switch (doing) {
    case 0: *sum = chance_mixed(*sum, nicx_read32(NIC_RDH(0))); break;
    case 1: *sum = chance_mixed(*sum, nicx_read32(NIC_TDH(0))); break;
    case 2: *sum = chance_mixed(*sum, nicx_read32(NIC_EICR)); break;
    case 3: *sum = chance_mixed(*sum, nicx_get64(RX_RING + 8)); break;
    case 4: nicx_write32(NIC_RDT(0), 2); break;
    case 5: nicx_write32(NIC_TDT(0), who + 1); break;
    case 6: nicx_put64(RX_RING + 16, buffer(1)); break;
    case 7: nicx_write32(NIC_EIMS, CAUSE); break;
    case 8: nicx_write32(NIC_EERD, 1); break;
    case 9: *sum = chance_mixed(*sum, nicx_read32(NIC_EERD)); break;
    case 10: nicx_write32(NIC_RXDCTL(0), who ? ENABLE : 0); break;
    case 11: nicx_wait(); break;
    case 12:
        if (is_apart) {
            count_in_lock(sum);
            break;
        }
        tell(&seen[who ^ 1], sizeof *seen, false);
        *sum = chance_mixed(*sum, seen[who ^ 1]);
        nicx_point();
        break;
    case 13: *sum = chance_mixed(*sum, nicx_get64(buffer(0) + 8 * who)); break;
    case 14: *sum = chance_mixed(*sum, nicx_vf_read32(0, NIC_VFRDH(0))); break;
    case 15: *sum = chance_mixed(*sum, nicx_vf_read32(0, NIC_VTEICR)); break;
    case 16: *sum = chance_mixed(*sum, nicx_vf_read32(0, NIC_VFMAILBOX)); break;
    case 17: nicx_vf_write32(0, NIC_VFMBMEM(0), who + 1); break;
    case 18: nicx_vf_write32(0, NIC_VFMAILBOX, 1); break;
    case 19: nicx_vf_write32(0, NIC_VFRDT(0), 2); break;
    case 20: nicx_vf_write32(0, NIC_VFTDT(0), who + 1); break;
    case 21: nicx_vf_write32(0, NIC_VTEIMS, 1); break;
    case 22: nicx_wmb(); break;
    default: nicx_put64(buffer(0) + 8 * who, who + 1); break;
    }
    tell(sum, sizeof *sum, true);
}

enum { OF_HOST = 14, OF_ALL = 22, OF_WEAK = 24 };

static const unsigned numbers[TWO] = {0, 1};

static void task(void *argument)
{
    unsigned who = *(const unsigned *)argument;
    for (unsigned k = 0; k < LENGTH; k++)
        if (doings[who][k] < QUEUED)
            act(who, doings[who][k]);
        else
            act_on_queue(who, doings[who][k] - (unsigned)QUEUED);
}

static void handler(void *unused)
{
    tell(&seen[TWO], sizeof *seen, true);
    seen[TWO] = chance_mixed(seen[TWO], has_function ? nicx_vf_read32(0, NIC_VTEICR) : nicx_read32(NIC_EICR));
}

static void bring_up_queue(unsigned queue)
{
    uint32_t ring = TX_RING + 16 * SLOTS * queue;
    nicx_write32(NIC_TDBAL(queue), ring);
    nicx_write32(NIC_TDLEN(queue), 16 * SLOTS);
    nicx_write32(NIC_TXDCTL(queue), ENABLE);
    nicx_settle();
    nicx_put64(ring, buffer(0));
    nicx_put64(ring + 8, (uint64_t)FRAME << 46 | (uint64_t)EOP_RS << 24 | (uint64_t)DATA << 20 | FRAME);
}

static const char *bring_up(void)
{
    lend_blocks(2);
    if (has_function) {
        nicx_write32(NIC_GCR_EXT, 3);
        nicx_write32(NIC_PVTIVAR(0), 0x80);
        nicx_write32(NIC_PVTEIMS(0), 1);
    }
    bring_up_receive(1);
    bring_up_interrupt();
    bring_up_transmit();
    put_transmit(0, 0, EOP_RS);
    put_transmit(1, 1, EOP_RS);
    for (unsigned queue = 1; queue < queues; queue++)
        bring_up_queue(queue);
    return NULL;
}

static void begin(void)
{
    memset(seen, 0, sizeof seen);
    memset(&lock, 0, sizeof lock);
    shared = 0;
    nicxi.knows_memory = is_seen;
    nicx_service("one", task, (void *)(uintptr_t)&numbers[0]);
    nicx_service("two", task, (void *)(uintptr_t)&numbers[1]);
    if (has_handler)
        nicx_handler("isr", has_function, has_function ? 0 : 5, handler, NULL, NICX_ANYWHERE);
    frames_come(1);
}

static const char *end(void)
{
    const uint32_t looked[] = {NIC_RDH(0), NIC_TDH(0),     NIC_EIMS,       NIC_EERD,          NIC_RXDCTL(0), NIC_RDT(0),
                               NIC_TDT(0), NIC_PVTEICR(0), NIC_PVTEIMS(0), NIC_PVFMAILBOX(0), NIC_PFMBMEM(0)};
    uint64_t sum = 1, half = 0;
    uint32_t word;
    for (unsigned k = 0; k <= TWO; k++)
        sum = chance_mixed(sum, seen[k]);
    for (size_t k = 0; k < sizeof looked / sizeof *looked; k++) {
        nic_peek32(nicx_device(), looked[k], &word);
        sum = chance_mixed(sum, word);
    }
    for (unsigned queue = 1; queue < queues; queue++) {
        nic_peek32(nicx_device(), NIC_TDH(queue), &word);
        sum = chance_mixed(sum, word);
        nic_peek32(nicx_device(), NIC_TXDCTL(queue), &word);
        sum = chance_mixed(sum, word);
    }
    nic_peek32(nicx_device(), NIC_EICR, &word);
    nic_get64(nicx_device(), RX_RING + 8, &half);
    sum = chance_mixed(chance_mixed(sum, word), half + shared);
    if (end_count < MOST_ENDS)
        ends[end_count++] = sum;
    return NULL;
}

/* --- both searches --- */

static int order(const void *a, const void *b)
{
    uint64_t x = *(const uint64_t *)a, y = *(const uint64_t *)b;
    return x < y ? -1 : x > y;
}

static uint64_t sum_of_ends(void)
{
    uint64_t sum = 1;
    qsort(ends, end_count, sizeof *ends, order);
    for (uint32_t k = 0; k < end_count; k++)
        if (!k || ends[k] != ends[k - 1])
            sum = chance_mixed(sum, ends[k]);
    return sum;
}

/* Returns the number of schedules; 0 if there are too many to run. */
static uint32_t search(uint32_t preemptions, bool sleeps, uint64_t *sum)
{
    struct parts parts = {0};
    volatile uint64_t part;
    struct exhaustive *it = nicxi_exhaustive(preemptions, sleeps, &parts, &part);
    nicx_result result;
    uint32_t runs = 0;
    end_count = 0;
    while (nicxi_exhaustive_next(it) && runs < MOST_RUNS) {
        nicx_chooser chooser = nicxi_exhaustive_chooser(it);
        nicx_run(&chooser, &result);
        nicxi_exhaustive_made(it);
        runs++;
        if (result.outcome != NICX_FINE || nicxi_exhaustive_is_strange(it)) {
            printf("a schedule ended with %s\n", result.words);
            exit(1);
        }
    }
    nicxi_free_exhaustive(it);
    *sum = sum_of_ends();
    return runs == MOST_RUNS ? 0 : runs;
}

/* Returns a random action, often an access to what tasks share: a load or store with weak memory, otherwise an access
   to own memory. */
static uint8_t some_doing(bool is_weak)
{
    static const uint8_t memory[] = {3, 6, 13, 22, 23};
    if (queues > 1 && chance_below(&chance, 4))
        return (uint8_t)(QUEUED + MOST_QUEUES * chance_below(&chance, ON_QUEUE) + chance_below(&chance, queues));
    if (!chance_below(&chance, 3))
        return is_weak ? memory[chance_below(&chance, sizeof memory)] : 12;
    return (uint8_t)chance_below(&chance, is_weak ? OF_WEAK : has_function ? OF_ALL : OF_HOST);
}

static void mix(unsigned number, uint64_t seed, bool is_weak)
{
    chance = chance_of(seed, number);
    has_handler = chance_below(&chance, 2);
    for (unsigned who = 0; who < TWO; who++)
        for (unsigned j = 0; j < LENGTH; j++)
            doings[who][j] = some_doing(is_weak);
}

static bool has_mode(int argc, char **argv, const char *mode)
{
    for (int k = 3; k < argc; k++)
        if (!strcmp(argv[k], mode))
            return true;
    return false;
}

int main(int argc, char **argv)
{
    static const uint32_t bounds[] = {0, 1, 2, UNBOUNDED};
    static nicx_scenario scenario = SCENARIO(.name = "sleeping", .allowed = NICX_FAULTS);
    unsigned scenarios = argc > 1 ? (unsigned)strtoul(argv[1], NULL, 10) : 100, compared = 0;
    uint64_t seed = argc > 2 ? strtoull(argv[2], NULL, 10) : 1, all = 0, fewer = 0;
    is_seen = has_mode(argc, argv, "seen");
    scenario.vfs = has_function = has_mode(argc, argv, "vf");
    scenario.race_free = is_apart = has_mode(argc, argv, "apart");
    scenario.memory = has_mode(argc, argv, "weak") ? NICX_WEAK : 0;
    scenario.queues = (uint16_t)(queues = has_mode(argc, argv, "four") ? 4 : has_mode(argc, argv, "three") ? 3 : 1);
    if (nicx_open(&scenario))
        return 2;
    for (unsigned k = 0; k < scenarios; k++) {
        mix(k, seed, scenario.memory);
        uint64_t with, without;
        nicxi_few_queues = UINT16_MAX;
        uint32_t many = search(bounds[k % 4], false, &without);
        nicxi_few_queues = FEW_QUEUES;
        uint32_t few = search(bounds[k % 4], true, &with);
        if (!many || !few)
            continue;
        compared++;
        all += many;
        fewer += few;
        if (with != without) {
            printf("scenario %u, bound %u: sleep sets change the final states\n", k, (unsigned)bounds[k % 4]);
            return 1;
        }
    }
    nicx_close();
    printf("%u scenarios, %llu schedules, %llu with sleep sets\n", compared, (unsigned long long)all,
           (unsigned long long)fewer);
    return compared ? 0 : 1;
}
