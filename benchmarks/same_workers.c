/* Threads that share a device through a lock, in C: as many calls per frame, and about as much work and sharing, as in
   driver_threads.rt.in, but no driver and no device. In `shared` the threads share a device's state, its history and
   the fed frames. In `apart` a thread finds only the lock in another processor's cache. In `batch` a thread holds the
   lock for all calls that a frame needs. Prints a line for each measure: its name, the number of frames, and the
   nanoseconds. */
#include <pthread.h>
#include <stdbool.h>
#include <stdlib.h>
#include <string.h>
#include <sys/mman.h>

#include "measure.h"

/* as in driver_threads.rt.in */
enum { RUNS = 50, SHARE = 120, WORKERS = 4 };
/* a worker's calls for one frame; the index of the call that receives the frame, and of the call that sends it */
enum { CALLS = 10, RECEIVES = 4, SENDS = 8 };
/* bytes of an entry in the history and in a list of calls */
enum { ENTRY = 88 };
/* cache lines of the device's state that a call reads and writes */
enum { READ_LINES = 24, WRITTEN_LINES = 6, LINE = 64 };
/* steps of a chain of multiplications, for the rest of a call's work under the lock and outside it */
enum { INSIDE = 24, OUTSIDE = 6 };
/* attempts to take the lock before a thread sleeps, and pauses between two attempts, as in device_lock */
enum { TRIES = 100, PAUSES = 2048 };
enum { LONGEST = 1514, ROOM = 1u << 25 };

enum kind { SHARED, APART, BATCH };

struct device {
    _Alignas(LINE) uint8_t lines[READ_LINES][LINE];
    uint8_t *history;
    _Alignas(LINE) uint8_t sent[2048];
};

struct worker {
    _Alignas(LINE) pthread_t thread;
    const struct run *run;
    struct device own;
    uint8_t *calls;
    unsigned int number;
    uint64_t chain, began, ended;
    uint8_t block[2048];
};

struct run {
    enum kind kind;
    size_t length;
    unsigned int workers;
    struct device *device;
    uint8_t (*frames)[2048];
};

static pthread_mutex_t lock = PTHREAD_MUTEX_INITIALIZER;
static pthread_barrier_t gate;

static uint8_t *fresh(void)
{
    uint8_t *at = mmap(NULL, ROOM, PROT_READ | PROT_WRITE, MAP_PRIVATE | MAP_ANONYMOUS | MAP_NORESERVE, -1, 0);
    if (at == MAP_FAILED)
        exit(1);
    return at;
}

static void hold(void)
{
    for (int i = 0; i < TRIES; i++) {
        if (pthread_mutex_trylock(&lock) == 0)
            return;
        for (int pause = 0; pause < PAUSES; pause++)
            __asm__ volatile("" ::: "memory");
    }
    pthread_mutex_lock(&lock);
}

static void work(struct worker *it, int steps)
{
    for (int i = 0; i < steps; i++)
        it->chain = it->chain * 6364136223846793005u + 1442695040888963407u;
}

/* Does what a call does under the lock. */
static void call(struct worker *it, struct device *device, int which, uint8_t *frame)
{
    for (int i = 0; i < READ_LINES; i++)
        it->chain += device->lines[i][0];
    for (int i = 0; i < WRITTEN_LINES; i++)
        device->lines[i * (READ_LINES / WRITTEN_LINES)][1]++;
    if (which == RECEIVES)
        memcpy(it->block, frame, it->run->length);
    if (which == SENDS)
        memcpy(device->sent, it->block, it->run->length);
    memset(device->history, (int)it->chain, ENTRY);
    device->history += ENTRY;
    work(it, INSIDE);
}

static void pass_frame(struct worker *it, uint8_t *frame)
{
    struct device *device = it->run->kind == APART ? &it->own : it->run->device;
    const bool batch = it->run->kind == BATCH;
    if (batch)
        hold();
    for (int which = 0; which < CALLS; which++) {
        if (!batch)
            hold();
        call(it, device, which, frame);
        if (!batch)
            pthread_mutex_unlock(&lock);
        memset(it->calls, (int)it->chain, ENTRY);
        it->calls += ENTRY;
        work(it, OUTSIDE);
    }
    if (batch)
        pthread_mutex_unlock(&lock);
}

static void *run_worker(void *of)
{
    struct worker *it = of;
    pthread_barrier_wait(&gate);
    it->began = now();
    for (unsigned int i = 0; i < SHARE; i++)
        pass_frame(it, it->run->frames[i * it->run->workers + it->number]);
    it->ended = now();
    return NULL;
}

/* Returns the nanoseconds from when the first worker began until the last one ended. */
static uint64_t took(struct worker *workers, unsigned int count)
{
    uint64_t began = workers[0].began, ended = workers[0].ended;
    for (unsigned int i = 1; i < count; i++) {
        began = workers[i].began < began ? workers[i].began : began;
        ended = workers[i].ended > ended ? workers[i].ended : ended;
    }
    return ended - began;
}

static uint64_t time_run(const struct run *run, struct worker *workers)
{
    uint8_t *first = run->device->history = fresh();
    for (unsigned int i = 0; i < SHARE * run->workers; i++)
        memset(run->frames[i], (int)i, run->length);
    pthread_barrier_init(&gate, NULL, run->workers);
    for (unsigned int i = 0; i < run->workers; i++) {
        workers[i] = (struct worker){.run = run, .number = i, .calls = fresh(), .own = {.history = fresh()}};
        if (pthread_create(&workers[i].thread, NULL, run_worker, &workers[i]))
            exit(1);
    }
    for (unsigned int i = 0; i < run->workers; i++)
        pthread_join(workers[i].thread, NULL);
    for (unsigned int i = 0; i < run->workers; i++) {
        sink += (uint32_t)workers[i].chain;
        munmap(workers[i].calls - SHARE * CALLS * ENTRY, ROOM);
        munmap(workers[i].own.history - (run->kind == APART ? SHARE * CALLS * ENTRY : 0), ROOM);
    }
    munmap(first, ROOM);
    pthread_barrier_destroy(&gate);
    return took(workers, run->workers);
}

static void measure(enum kind kind, size_t length, unsigned int count)
{
    static const char *const names[] = {"shared", "apart", "batch"};
    static struct device device;
    static struct worker workers[WORKERS];
    static uint8_t frames[SHARE * WORKERS][2048];
    const struct run run = {kind, length, count, &device, frames};
    uint64_t sum = 0;
    for (int i = 0; i < RUNS; i++)
        sum += time_run(&run, workers);
    printf("%s%ux%zu %u %llu\n", names[kind], count, length, RUNS * SHARE * count, (unsigned long long)sum);
}

int main(void)
{
    const size_t lengths[] = {60, LONGEST};
    for (int i = 0; i < 2; i++)
        for (enum kind kind = SHARED; kind <= BATCH; kind++)
            for (unsigned int count = 1; count <= WORKERS; count *= 2)
                measure(kind, lengths[i], count);
    return 0;
}
