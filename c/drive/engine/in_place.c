/* DMA memory that the driver accesses through pointers. The device has its own copy of memory, as in every search: it
   is restored with the device, and a failure's script contains each store. The driver has a second copy, `here`, at the
   same offsets. Each device write is copied to `here` in its own step. Before the driver's next call, its stores are
   found by comparing `here` with `known`, and written to the device's memory at points, as nicx_dma_write does. So a
   store reaches the device by the driver's next call at the latest, and other actors can run before each store. */
#include <string.h>

#include "drive.h"

enum { UNIT = 16, BYTES = BLOCKS * NIC_BLOCK_BYTES };

/* What the driver sees, and the value of each byte on which driver and device last agreed. */
static uint8_t here[BYTES] __attribute__((aligned(4096))), known[BYTES];
/* Threads that are writing their stores to the device, by number. The last entry is for code outside any thread. */
static bool writes[NICXO_THREADS + 1];

/* Functions of -fsanitize=address, if the driver is built with it. */
void __asan_poison_memory_region(void const volatile *, size_t) __attribute__((weak));
void __asan_unpoison_memory_region(void const volatile *, size_t) __attribute__((weak));

static void hide(uint64_t from, uint64_t to)
{
    if (__asan_poison_memory_region)
        __asan_poison_memory_region(here + from, (size_t)(to - from));
}

static void show(uint64_t from, uint64_t to)
{
    if (__asan_unpoison_memory_region)
        __asan_unpoison_memory_region(here + from, (size_t)(to - from));
}

static uint64_t at_block(uint32_t block)
{
    return (uint64_t)block * NIC_BLOCK_BYTES;
}

/* Also clears the block after the last piece, which no piece owns. */
void nicd_in_place_begin(void)
{
    uint64_t end = nicd.beyond ? at_block(nicd.beyond + 1) : 0;
    show(0, end);
    memset(here, 0, end);
    memset(known, 0, end);
    memset(writes, 0, sizeof writes);
    hide(0, BYTES);
    nicd.beyond = 0;
    nicd.holds_back = false;
}

/* --- a piece --- */

static bool is_here(uint64_t at, uint64_t *bus)
{
    *bus = at - (uintptr_t)here;
    return *bus < BYTES;
}

/* Starts a piece in place with the bytes that earlier calls wrote to it. */
static void begin_piece(struct piece *piece)
{
    piece->is_in_place = true;
    nicxo_has_pointers(is_here);
    if (nicd.beyond < piece->first + piece->blocks)
        nicd.beyond = piece->first + piece->blocks;
    show(piece->bus, piece->bus + piece->bytes);
    if (nic_dma_read(nicx_device(), piece->bus, here + piece->bus, piece->bytes) == NIC_DONE)
        memcpy(known + piece->bus, here + piece->bus, piece->bytes);
}

static struct piece *piece_of(uint64_t bus)
{
    for (unsigned k = 0; k < MOST_PIECES; k++) {
        struct piece *piece = &nicd.pieces[k];
        if (piece->blocks && piece->bus && bus >= piece->bus && bus - piece->bus < piece->bytes)
            return piece;
    }
    return NULL;
}

bool nicd_in_place_has(uint64_t bus)
{
    const struct piece *piece = piece_of(bus);
    return piece && piece->is_in_place;
}

void *nicd_dma_pointer(uint64_t bus)
{
    struct piece *piece = piece_of(bus);
    if (piece && !piece->is_in_place)
        begin_piece(piece);
    if (piece)
        return here + bus;
    nicd_failed("nicd_dma_pointer of 0x%llx, which isn't lent: %s", (unsigned long long)bus, nicd_memory_near(bus));
    return NULL;
}

void nicd_in_place_end(const struct piece *piece)
{
    uint64_t from = at_block(piece->first), end = from + at_block(piece->blocks);
    if (!piece->is_in_place)
        return;
    show(from, end);
    memset(here + from, 0, end - from);
    memset(known + from, 0, end - from);
    hide(from, end);
}

/* --- what the device and the driver's calls write --- */

/* Reads the parts of this range of device memory that belong to pieces in place into `known` and `here`. */
void nicd_in_place_copy(uint64_t bus, uint64_t bytes)
{
    for (unsigned k = 0; k < MOST_PIECES; k++) {
        const struct piece *piece = &nicd.pieces[k];
        uint64_t from = bus > piece->bus ? bus : piece->bus, end = piece->bus + piece->bytes;
        end = bus + bytes < end ? bus + bytes : end;
        if (!piece->blocks || !piece->bus || !piece->is_in_place || from >= end)
            continue;
        if (nic_dma_read(nicx_device(), from, known + from, (size_t)(end - from)) == NIC_DONE)
            memcpy(here + from, known + from, (size_t)(end - from));
    }
}

void nicd_in_place_see(const nicxo_step *step)
{
    if (!nicd.beyond)
        return;
    if (step->kind == STEP_RX && step->status == NIC_WROTE) {
        nicd_in_place_copy(step->outcome.at, step->outcome.len);
        nicd_in_place_copy(step->outcome.desc, NIC_DESC_BYTES);
    } else if (step->kind == STEP_TX && step->outcome.back && !nicd.holds_back) {
        nicd_in_place_copy(step->outcome.at, NIC_DESC_BYTES);
    } else if (step->kind == STEP_POKE && step->status == NIC_DONE && !writes[nicxo_thread()]) {
        nicd_in_place_copy(step->bus, step->length);
    }
}

/* --- what the driver stores through pointers --- */

/* The comparison and the copy also cover memory that the driver has poisoned (ASAN_POISON_MEMORY_REGION), so the
   sanitizer must not instrument these functions. */
__attribute__((no_sanitize("address"))) static bool is_alike(uint64_t at, uint64_t end)
{
    if (!__asan_poison_memory_region)
        return !memcmp(here + at, known + at, (size_t)(end - at));
    while (at < end && here[at] == known[at])
        at++;
    return at >= end;
}

/* Returns the driver's bytes, or null if they equal what the device has. */
__attribute__((no_sanitize("address"))) static const uint8_t *bytes_at(uint64_t bus, size_t length)
{
    static uint8_t room[NIC_BLOCK_BYTES];
    if (is_alike(bus, bus + length))
        return NULL;
    if (!__asan_poison_memory_region)
        return here + bus;
    for (size_t k = 0; k < length; k++)
        room[k] = ((const volatile uint8_t *)here)[bus + k];
    return room;
}

static void note_written(uint64_t bus, size_t length)
{
    const uint8_t *bytes = bytes_at(bus, length);
    if (bytes)
        memcpy(known + bus, bytes, length);
}

static bool differs(uint64_t at, uint64_t end)
{
    return !is_alike(at, end - at < UNIT ? end : at + UNIT);
}

/* Writes a run of changed units in one block. Another thread that runs before this write finds the same change and
   may write it first: all earlier stores must reach the device before any thread proceeds to its call. Then this thread
   writes nothing: the thread that stored the bytes may have ended its call, and another may have freed the memory. */
static uint64_t write_run(uint64_t from, uint64_t end)
{
    uint64_t to = from;
    while (to < end && differs(to, end) && (to == from || to % NIC_BLOCK_BYTES))
        to += UNIT;
    to = to < end ? to : end;
    uint8_t status = nicxo_write(from, bytes_at, (size_t)(to - from));
    note_written(from, (size_t)(to - from));
    if (status != NIC_DONE && !nicxo_is_over())
        nicd_failed("the driver writes through a pointer to 0x%llx, which isn't lent: %s", (unsigned long long)from,
                    nicd_memory_near(from));
    return to;
}

static void write_changes(uint64_t from, uint64_t end)
{
    while (from < end && !is_alike(from, end)) {
        while (!differs(from, end))
            from += UNIT;
        from = write_run(from, end);
        if (nicxo_is_over())
            return;
    }
}

/* If a sanitizer is in use, it detects accesses to memory that isn't lent, so only the pieces are written. */
static void write_all(void)
{
    if (!__asan_poison_memory_region) {
        write_changes(0, at_block(nicd.beyond + 1));
        return;
    }
    for (unsigned k = 0; k < MOST_PIECES; k++)
        if (nicd.pieces[k].blocks && nicd.pieces[k].is_in_place && nicd.pieces[k].bus)
            write_changes(nicd.pieces[k].bus, nicd.pieces[k].bus + nicd.pieces[k].bytes);
}

void nicd_publish(void)
{
    unsigned self = nicxo_thread();
    if (!nicd.beyond || writes[self])
        return;
    writes[self] = true;
    write_all();
    writes[self] = false;
}
