/* Runs searches while another thread of the process creates, uses and closes devices of the plain library: neither
   thread gets the other thread's memory. Arguments: a folder for the files of failures, and the number of searches. */
#define _DEFAULT_SOURCE
#include <pthread.h>
#include <stdio.h>
#include <stdlib.h>

#define main search
#include "../corpus/tail_before_descriptor.c"
#undef main

enum { KEPT = 4 };

static bool is_over;

static void expect(bool holds, const char *what)
{
    if (holds)
        return;
    printf("%s\n", what);
    fflush(stdout);
    abort();
}

/* Brings up a queue and receives a frame: the registers and the memory must contain what was written here. */
static void use(nic *n, unsigned number)
{
    static const uint8_t bytes[FRAME] = {2, 0, 0, 0, 0, 1, 2, 0, 0, 0, 0, 2, 0x88, 0xB5};
    nic_outcome outcome;
    uint64_t second = 0;
    nic_write32(n, NIC_RXCTRL, NIC_RXCTRL_RXEN);
    nic_write32(n, NIC_FCTRL, NIC_FCTRL_UPE);
    nic_write32(n, NIC_RDLEN(0), 16 * SLOTS);
    nic_write32(n, NIC_SRRCTL(0), NIC_SRRCTL_DESCTYPE_IS(1) | NIC_SRRCTL_BSIZEPACKET_IS(2));
    nic_write32(n, NIC_RETA(0), number);
    nic_write32(n, NIC_RXDCTL(0), ENABLE);
    nic_queue_step(n, false, 0, &outcome);
    uint32_t slot = nic_get(n, NIC_RDH(0));
    nic_put64(n, 16 * slot, NIC_BLOCK_BYTES);
    nic_put64(n, 16 * slot + 8, 0);
    nic_write32(n, NIC_RDT(0), (slot + 1) % SLOTS);
    expect(nic_arrive(n, bytes, sizeof bytes, &outcome) == NIC_DONE, "no frame arrives");
    expect(nic_rx_step(n, &outcome) == NIC_WROTE, "no frame is written");
    expect(nic_get64(n, 16 * slot + 8, &second) == NIC_DONE && (second & DD), "no descriptor is done");
    expect(nic_get(n, NIC_RETA(0)) == number, "a register has another device's value");
}

static void open_and_use(nic *n, unsigned number)
{
    expect(nic_open(n, 0, 8, 4) == NIC_DONE, "no device");
    nic_lend_all(n);
    use(n, number);
}

/* Some devices outlive later ones, so that they exist when a search begins or ends. */
static void *make_devices(void *made)
{
    nic kept[KEPT];
    unsigned count = 0;
    while (!__atomic_load_n(&is_over, __ATOMIC_ACQUIRE)) {
        nic *n = &kept[count % KEPT];
        if (count >= KEPT) {
            expect(nic_get(n, NIC_RETA(0)) == count - KEPT, "a register has another device's value");
            nic_close(n);
        }
        open_and_use(n, count++);
        __atomic_store_n((unsigned *)made, count, __ATOMIC_RELEASE);
    }
    for (unsigned k = 0; k < KEPT && k < count; k++)
        nic_close(&kept[k]);
    return NULL;
}

static void search_beside(char *out, unsigned rounds)
{
    char *words[] = {"threads", "--quiet", "--no-shrink", "--jobs", "2", "--runs", "20", "--out", out, NULL};
    pthread_t other;
    unsigned made = 0;
    expect(!pthread_create(&other, NULL, make_devices, &made), "no thread");
    /* (on a busy machine the other thread may start late) */
    for (unsigned k = 0; k < rounds || __atomic_load_n(&made, __ATOMIC_ACQUIRE) <= KEPT; k++)
        expect(search(9, words) == 1, "a search found nothing");
    __atomic_store_n(&is_over, true, __ATOMIC_RELEASE);
    pthread_join(other, NULL);
}

/* --- from one thread to another --- */

static void *close_it(void *n)
{
    use(n, 7);
    nic_close(n);
    return NULL;
}

static void *open_it(void *n)
{
    open_and_use(n, 8);
    return NULL;
}

static uint32_t first_of(void *unused, const uint16_t *can, uint32_t count)
{
    (void)can;
    (void)count;
    return 0;
}

static void *make_schedule(void *result)
{
    static const nicx_chooser chooser = {first_of, NULL};
    nicx_run(&chooser, result);
    return NULL;
}

static void on_another(void *(*function)(void *), void *argument)
{
    pthread_t other;
    expect(!pthread_create(&other, NULL, function, argument), "no thread");
    pthread_join(other, NULL);
}

/* Another thread closes a device of the search's thread, and vice versa; and a thread that didn't open the scenario
   runs schedules. */
static void cross_over(void)
{
    nic here, there;
    nicx_result first, second;
    expect(!nicx_open(&scenario), "no scenario");
    open_and_use(&here, 6);
    on_another(close_it, &here);
    on_another(open_it, &there);
    use(&there, 9);
    on_another(make_schedule, &first);
    use(&there, 10);
    make_schedule(&second);
    expect(first.outcome == second.outcome && first.points == second.points, "one schedule has two results");
    nicx_close();
    use(&there, 11);
    nic_close(&there);
}

int main(int argc, char **argv)
{
    if (argc != 3)
        return 2;
    cross_over();
    search_beside(argv[1], (unsigned)atoi(argv[2]));
    cross_over();
    printf("%s searches beside another thread's devices\n", argv[2]);
    return 0;
}
