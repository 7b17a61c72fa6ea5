/* `faulty MODE words..`: a scenario with one fault. c/explore/check.py checks how each fault is reported. */
#define _DEFAULT_SOURCE
#include <signal.h>
#include <stdio.h>
#include <stdlib.h>
#include <string.h>
#include <unistd.h>

#include "corpus.h"
#include "modes.h"

static nicx_mutex locks[2];
static volatile unsigned turns;
static bool head_moved, first_ran, second_ran, service_ran;
static unsigned left; /* `begin` doesn't initialize it */

/* Lends the driver's own memory, which a search refuses. */
static void lend_own(nic *n)
{
    static uint8_t own[NIC_BLOCK_BYTES];
    if (nic_lend_memory(n, 15 * NIC_BLOCK_BYTES, own, sizeof own) != NIC_BAD_MEMORY)
        abort();
}

static void lend_own_elsewhere(void)
{
    nic other;
    if (nic_open(&other, 0, 4, 16) != NIC_DONE)
        abort();
    lend_own(&other);
    nic_close(&other);
}

/* Brings a queue up the way a driver does. */
static void start_queue(unsigned queue, bool waits)
{
    nicx_write32(NIC_RXDCTL(queue), ENABLE);
    while (!(nicx_read32(NIC_RXDCTL(queue)) & ENABLE))
        if (waits)
            nicx_wait();
}

static const char *bring_up(void)
{
    if (is("refused"))
        return "there is no cable";
    nicx_check(!is("checked"), "a check of the bring-up");
    if (is("memory_early"))
        lend_own(nicx_device());
    lend_blocks(1);
    bring_up_receive(1);
    bring_up_interrupt();
    nicx_write32(NIC_TXDCTL(0), ENABLE);
    if (is("polls"))
        while (!(nicx_read32(NIC_TXDCTL(0)) & ENABLE))
            nicx_pause();
    if (is("spins"))
        while (!(nicx_read32(NIC_TXDCTL(0)) & ENABLE))
            continue;
    if (is("stuck") || is("stuck_spinning"))
        start_queue(1, is("stuck"));
    return NULL;
}

static void quiet(void *unused)
{
    nicx_write32(NIC_EIMC, CAUSE);
    nicx_read32(NIC_EICR);
}

/* Two handlers for one vector; the first one waits. */
static void first_handler(void *unused)
{
    nicx_wait_until(nicx_is_set, &head_moved);
    first_ran = true;
}

static void second_handler(void *unused)
{
    second_ran = true;
}

static void returning_service(void *unused)
{
    while (nicx_read32(NIC_RDH(0)) != 1)
        nicx_wait();
    head_moved = service_ran = true;
}

static void begin_handlers(void)
{
    head_moved = first_ran = second_ran = service_ran = false;
    nicx_service("service", returning_service, NULL);
    nicx_handler("first", 0, 5, first_handler, NULL, NICX_BESIDE);
    nicx_handler("second", 0, 5, second_handler, NULL, NICX_BESIDE);
    frames_come(1);
}

/* Takes both locks, the one in `argument` first. */
static void locker(void *argument)
{
    nicx_mutex *first = argument, *second = first == locks ? locks + 1 : locks;
    nicx_lock(first);
    nicx_lock(second);
    nicx_unlock(second);
    nicx_unlock(first);
}

static bool reads(void *unused)
{
    return nicx_read32(NIC_RDH(0)) < SLOTS;
}

/* Makes calls that aren't allowed, or that the search must report. */
static void misuse(void)
{
    if (is("condition"))
        nicx_wait_until(reads, NULL);
    if (is("settle"))
        nicx_settle();
    if (is("lend_all"))
        nicx_lend_all();
    if (is("memory_in_place"))
        lend_own(nicx_device());
    if (is("memory_elsewhere"))
        lend_own_elsewhere();
    if (is("held")) {
        nicx_lock(&locks[0]);
        nicx_lock(&locks[1]);
        nicx_unlock(&locks[0]);
    }
    if (is("stray"))
        nicx_check(!nicx_read32(0x1F000) || left, "a register that doesn't exist");
    if (is("beyond"))
        start_queue(5, true);
    if (is("left"))
        nicx_check(++left < 20, "the twentieth schedule");
}

/* Loops that poll the device without waiting: two registers in turn, and a descriptor. */
static void spin(void)
{
    while (is("two") && nicx_read32(NIC_RDH(0)) != 1 && nicx_read32(NIC_RDT(0)) < SLOTS)
        continue;
    while (is("descriptor") && !(nicx_get64(RX_RING + 8) & DD))
        continue;
}

static void fault(void *unused)
{
    misuse();
    spin();
    nicx_read32(NIC_RDH(0));
    uint32_t head = nicx_read32(NIC_RDH(0));
    if (is("crash") && head)
        raise(SIGSEGV);
    if (is("exit") && head)
        _exit(5);
    while (is("hang") && head)
        turns++;
    while (is("endless"))
        nicx_write32(NIC_EIMC, CAUSE);
    if (is("memory"))
        nicx_get64(0);
    if (is("unlock"))
        nicx_unlock(locks);
    if (is("check"))
        nicx_check(!head, "the head moved");
    if (is("strange") && ++turns % 3 == 0)
        nicx_read32(NIC_EICR);
    if (is("interrupts"))
        nicx_interrupts_off();
    if (is("waits"))
        nicx_wait_until((bool (*)(void *))(uintptr_t)is, (void *)(uintptr_t) "never");
}

static int ticker;

/* A timer that always arms itself again. */
static void tick(void *unused)
{
    nicx_write32(NIC_EIMC, CAUSE);
    nicx_arm(ticker);
}

static void begin(void)
{
    memset(locks, 0, sizeof locks);
    locks[0].name = "first";
    locks[1].name = "second";
    if (is("no_tasks"))
        return;
    if (is("handlers")) {
        begin_handlers();
        return;
    }
    if (is("locks")) {
        nicx_task("up", locker, &locks[0]);
        nicx_task("down", locker, &locks[1]);
        return;
    }
    nicx_task(is("name") ? "a name" : "faulty", fault, NULL);
    nicx_task(is("twice") ? "faulty" : "other", quiet, NULL);
    nicx_handler("isr", is("group"), 5, quiet, NULL, is("nowhere") ? 2 : NICX_ANYWHERE);
    if (is("ticks")) {
        ticker = nicx_timer("tick", tick, NULL, 3);
        nicx_arm(ticker);
    }
    while (is("begin_waits") && !nicx_read32(NIC_RDH(0)))
        nicx_wait();
    frames_come(1);
}

static const char *always(void)
{
    uint32_t head = 0;
    if (is("look"))
        nicx_read32(NIC_RDH(0));
    if (is("look_fails"))
        nicx_fail("always asks");
    nic_peek32(nicx_device(), NIC_RDH(0), &head);
    return is("always") && head ? "the head moved" : NULL;
}

static const char *end(void)
{
    if (is("settle_at_end"))
        nicx_settle();
    if (is("handlers") && !(first_ran && second_ran && service_ran && nicx_read32(NIC_RDH(0)) == 1))
        return "a handler or the service didn't finish";
    if (is("lines"))
        return "rx 0: nobody\xC3\xA9 takes it\n\nint 5: no message\n";
    return is("end") ? "it ended <here> & \"now\"" : NULL;
}

MODES("fine", .name = is("scenario") ? "a scenario" : "faulty", .fifo = is("fifo") ? 0 : 64,
      .queues = is("queues") ? 0 : 1, .stack = is("stack") ? 4096 : 0,
      .memory = is("memory_kind")    ? 16
                : is("two_memories") ? NICX_WEAK | NICX_TSO
                                     : 0,
      .vfs = is("vfs") ? 64 : 0, .points = is("points") ? 1000001 : 200, .always = always,
      .end = is("no_end") ? NULL : end)
