/* Measures the minimum cost of the driver's notes, in C. It writes a frame's calls, and the frame's bytes as often as
   notes and records contain them, to memory that is touched for the first time. Prints a line for each measure: its
   name, the number of frames, and the nanoseconds. */
#include <stdlib.h>
#include <string.h>
#include <sys/mman.h>

#include "measure.h"

/* as in driver_frames.rt.in */
enum { RUNS = 50, FRAMES = 2000 };
/* entries for a frame: 12 events, and the two device steps that do something; idle steps take no extra room */
enum { ENTRIES = 12 + 2 };
/* bytes of a call (for a device in hand, or for a pass), and of a history entry; each includes the idle steps before it
   */
enum { MADE = 88, ENTRY = 88 };
/* notes that contain a frame's bytes: its arrival and its collection, in each list of calls; its block's notes, shared
   by taking, lending and taking it again; and its two records */
enum { NOTES = 2, BLOCK = 1, RECORDS = 2 };

static uint8_t frame[2048], call[ENTRY];

static uint8_t *put(uint8_t *at, const uint8_t *bytes, size_t count)
{
    memcpy(at, bytes, count);
    return at + count;
}

/* how often a frame's bytes are written */
static int copies(int locked)
{
    return NOTES * (1 + locked) + BLOCK + RECORDS;
}

/* writes one frame's calls (to one list for a device in hand, to two under the lock) and its bytes */
__attribute__((noinline)) static uint8_t *note(uint8_t *at, size_t length, int locked)
{
    for (int i = 0; i < ENTRIES; i++) {
        call[i] ^= (uint8_t)length;
        at = put(at, call, MADE);
        if (locked)
            at = put(at, call, ENTRY);
    }
    for (int i = 0; i < copies(locked); i++)
        at = put(at, frame, length);
    return at;
}

static void measure(const char *name, size_t length, int locked)
{
    size_t calls = ENTRIES * (MADE + (locked ? ENTRY : 0));
    size_t size = FRAMES * (calls + (size_t)copies(locked) * length);
    uint64_t took = 0;
    for (int run = 0; run < RUNS; run++) {
        uint8_t *fresh = mmap(NULL, size, PROT_READ | PROT_WRITE, MAP_PRIVATE | MAP_ANONYMOUS, -1, 0), *at = fresh;
        if (fresh == MAP_FAILED)
            exit(1);
        uint64_t began = now();
        for (int i = 0; i < FRAMES; i++)
            at = note(at, length, locked);
        took += now() - began;
        munmap(fresh, size);
    }
    printf("%s %d %llu\n", name, RUNS * FRAMES, (unsigned long long)took);
}

int main(void)
{
    memset(frame, 0x42, sizeof frame);
    measure("driven60", 60, 0);
    measure("locked60", 60, 1);
    measure("driven1514", 1514, 0);
    measure("locked1514", 1514, 1);
    return 0;
}
