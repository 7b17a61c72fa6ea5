/* Calls that no driver should make: each function with each invalid number, and 100,000 random calls. Every call
   returns a status that the header lists for it, and none writes outside its buffers. */
#include <string.h>

#include "check.h"

enum { CALLS = 100000, GUARD = 64 };

/* Checks that a status is in a list that ends with 255. */
static void allowed(const char *call, uint8_t status, const uint8_t *list)
{
    for (; *list != 255; list++)
        if (*list == status)
            return;
    fprintf(stderr, "hostile: %s returns %u (%s), which the header doesn't list for it\n", call, status,
            nic_status_name(status));
    exit(1);
}

#define MAY(call, ...)                                                                                                 \
    do {                                                                                                               \
        static const uint8_t list[] = {__VA_ARGS__, 255};                                                              \
        allowed(#call, call, list);                                                                                    \
    } while (0)

static void bad_sizes(void)
{
    nic n;
    static const uint32_t blocks[] = {0, 65537, 1u << 20, 1u << 31, UINT32_MAX};
    for (unsigned vfs = 64; vfs < 256; vfs++)
        ANSWERS(NIC_TOO_MANY_VFS, nic_open(&n, (uint8_t)vfs, 64, 1));
    for (uint32_t fifo = 4097; fifo < 65536; fifo += 77)
        ANSWERS(NIC_BAD_FIFO, nic_open(&n, 0, (uint16_t)fifo, 1));
    ANSWERS(NIC_BAD_FIFO, nic_open(&n, 0, 0, 1));
    ANSWERS(NIC_BAD_FIFO, nic_open(&n, 0, 65535, 1));
    for (size_t k = 0; k < sizeof blocks / sizeof *blocks; k++)
        ANSWERS(NIC_BAD_BLOCKS, nic_open(&n, 0, 1, blocks[k]));
    ANSWERS(NIC_BAD_BLOCKS, nic_open(&n, 64, 0, 0));
    ANSWERS(NIC_TOO_MANY_VFS, nic_open(&n, 64, 0, 1));
    nic_close(&n);
    for (unsigned k = 0; k < 4; k++) {
        ANSWERS(NIC_DONE, nic_open(&n, k & 1 ? 63 : 0, k & 2 ? 4096 : 1, k & 1 ? 65536 : 1));
        nic_close(&n);
    }
}

/* --- a handle that isn't open --- */

static void closed_memory(nic *n)
{
    uint8_t bytes[4] = {7}, memory[NIC_BLOCK_BYTES];
    ANSWERS(NIC_CLOSED, nic_lend(n, 0));
    ANSWERS(NIC_CLOSED, nic_take(n, 0));
    ANSWERS(NIC_CLOSED, nic_lend_all(n));
    ANSWERS(NIC_CLOSED, nic_lend_memory(n, 0, memory, sizeof memory));
    ANSWERS(NIC_CLOSED, nic_unlend_memory(n, 0, sizeof memory));
    ANSWERS(NIC_CLOSED, nic_dma_read(n, 0, bytes, sizeof bytes));
    ANSWERS(NIC_CLOSED, nic_dma_write(n, 0, bytes, sizeof bytes));
    CHECK(bytes[0] == 7);
}

static void closed_steps(nic *n)
{
    nic_outcome outcome;
    nic_settling where = {1, 9};
    char text[8] = "text";
    uint8_t frame[60] = {2};
    size_t count = 5;
    memset(&outcome, 7, sizeof outcome);
    ANSWERS(NIC_CLOSED, nic_arrive(n, frame, sizeof frame, &outcome));
    CHECK(nic_next_out(n) == 0);
    ANSWERS(NIC_CLOSED, nic_collect(n, frame, sizeof frame, &outcome));
    ANSWERS(NIC_CLOSED, nic_link(n, true));
    ANSWERS(NIC_CLOSED, nic_rx_step(n, &outcome));
    ANSWERS(NIC_CLOSED, nic_tx_step(n, 0, &outcome));
    ANSWERS(NIC_CLOSED, nic_queue_step(n, true, 0, &outcome));
    ANSWERS(NIC_CLOSED, nic_eeprom_step(n, &outcome));
    ANSWERS(NIC_CLOSED, nic_int_step(n, 0, &outcome));
    ANSWERS(NIC_CLOSED, nic_settle(n, 1, &outcome, 1, &count));
    ANSWERS(NIC_CLOSED, nic_next_step(n, &where, &outcome));
    ANSWERS(NIC_CLOSED, nic_note(n, text));
    CHECK(nic_why(n, text, sizeof text) == 0 && !*text && where.at == 9);
    CHECK(count == 0 && outcome.queue == 0x0707 && outcome.status == 7 && frame[0] == 2);
}

/* A call with a handle that was never opened, or that is closed, changes nothing, not even what its arguments point
   to. */
static void closed(nic *n)
{
    nic_kept none = {NULL};
    uint32_t word = 7;
    uint64_t line = 7;
    uint8_t image[2] = {0};
    ANSWERS(NIC_CLOSED, nic_snapshot(n, &none));
    ANSWERS(NIC_CLOSED, nic_restore(n, &none));
    CHECK(!none.kept);
    ANSWERS(NIC_CLOSED, nic_read32(n, NIC_STATUS, &word));
    ANSWERS(NIC_CLOSED, nic_write32(n, NIC_CTRL, 0));
    ANSWERS(NIC_CLOSED, nic_vf_read32(n, 0, NIC_VTEIMS, &word));
    ANSWERS(NIC_CLOSED, nic_vf_write32(n, 0, NIC_VTEIMS, 0));
    ANSWERS(NIC_CLOSED, nic_peek32(n, NIC_STATUS, &word));
    ANSWERS(NIC_CLOSED, nic_vf_peek32(n, 0, NIC_VTEIMS, &word));
    CHECK(word == 7 && nic_get(n, NIC_STATUS) == 0);
    ANSWERS(NIC_CLOSED, nic_install_image(n, image, sizeof image));
    ANSWERS(NIC_CLOSED, nic_install_text(n, image, sizeof image, &line));
    CHECK(line == 0);
    closed_memory(n);
    closed_steps(n);
    nic_close(n);
    nic_free(*n);
    CHECK(!n->device);
}

static void closed_handles(void)
{
    nic never = {NULL}, n, refused;
    nic_kept dropped = {NULL};
    closed(&never);
    ANSWERS(NIC_DONE, nic_open(&n, 0, 1, 1));
    ANSWERS(NIC_CLOSED, nic_restore(&n, &dropped));
    ANSWERS(NIC_DONE, nic_snapshot(&n, &dropped));
    nic_drop_snapshot(&dropped);
    ANSWERS(NIC_CLOSED, nic_restore(&n, &dropped));
    nic_free_snapshot(dropped);
    nic_close(&n);
    closed(&n);
    ANSWERS(NIC_BAD_BLOCKS, nic_open(&refused, 0, 1, 0));
    closed(&refused);
}

static void bad_registers(nic *n)
{
    static const uint32_t at[] = {0xC, 1, 2, 3, 0x1001, 0x1FFFC, 0x20000, 1u << 31, UINT32_MAX, UINT32_MAX - 3};
    uint32_t word;
    for (size_t k = 0; k < sizeof at / sizeof *at; k++) {
        word = 1;
        ANSWERS(NIC_STRAY, nic_read32(n, at[k], &word));
        CHECK(word == 0);
        ANSWERS(NIC_STRAY, nic_write32(n, at[k], UINT32_MAX));
        ANSWERS(NIC_STRAY, nic_peek32(n, at[k], &word));
    }
    for (unsigned vf = 0; vf < 256; vf++) {
        word = 1;
        ANSWERS(NIC_STRAY, nic_vf_read32(n, (uint8_t)vf, NIC_VTEIMS, &word));
        CHECK(word == UINT32_MAX);
        ANSWERS(NIC_STRAY, nic_vf_write32(n, (uint8_t)vf, NIC_VTEIMS, 1));
        ANSWERS(NIC_STRAY, nic_vf_peek32(n, (uint8_t)vf, NIC_VTEIMS, &word));
        ANSWERS(vf < 63 ? NIC_DONE : NIC_NO_GROUP, nic_vf_address(UINT32_MAX, (uint8_t)vf, NIC_VTEIMS, &word));
        ANSWERS(vf < 63 ? NIC_STRAY : NIC_NO_GROUP, nic_vf_address(UINT32_MAX, (uint8_t)vf, UINT32_MAX, &word));
    }
}

static void bad_memory(nic *n, uint32_t blocks)
{
    static const uint64_t at[] = {1u << 27, UINT64_C(1) << 32, UINT64_C(1) << 63, UINT64_MAX, UINT64_MAX - 2047};
    uint8_t bytes[32] = {0};
    uint64_t end = (uint64_t)blocks * NIC_BLOCK_BYTES;
    ANSWERS(NIC_NO_BLOCK, nic_lend(n, blocks));
    ANSWERS(NIC_NO_BLOCK, nic_lend(n, UINT32_MAX));
    ANSWERS(NIC_NOT_LENT, nic_take(n, 0));
    ANSWERS(NIC_NOT_LENT, nic_take(n, blocks));
    ANSWERS(NIC_NOT_LENT, nic_take(n, UINT32_MAX));
    ANSWERS(NIC_NOT_LENT, nic_dma_read(n, 0, bytes, 1));
    ANSWERS(NIC_DONE, nic_lend_all(n));
    ANSWERS(NIC_DONE, nic_lend_all(n));
    ANSWERS(NIC_NO_BLOCK, nic_lend(n, 0));
    for (size_t k = 0; k < sizeof at / sizeof *at; k++) {
        ANSWERS(NIC_NOT_LENT, nic_dma_read(n, at[k], bytes, 1));
        ANSWERS(NIC_NOT_LENT, nic_dma_write(n, at[k], bytes, sizeof bytes));
    }
    ANSWERS(NIC_DONE, nic_dma_write(n, end - 32, bytes, 32));
    ANSWERS(NIC_NOT_LENT, nic_dma_write(n, end - 31, bytes, 32));
    ANSWERS(NIC_NOT_LENT, nic_dma_read(n, end, bytes, 1));
    ANSWERS(NIC_DONE, nic_dma_read(n, 0, bytes, 0));
    ANSWERS(NIC_DONE, nic_dma_write(n, 0, bytes, 0));
}

/* A range across the boundary of two blocks is written whole. A range that ends in a block that isn't lent isn't
   written at all. */
static void borders(nic *n)
{
    uint8_t bytes[4096], got[4096];
    for (size_t k = 0; k < sizeof bytes; k++)
        bytes[k] = (uint8_t)(k * 7 + k / 256);
    ANSWERS(NIC_DONE, nic_dma_write(n, 1000, bytes, sizeof bytes));
    ANSWERS(NIC_DONE, nic_dma_read(n, 1000, got, sizeof got));
    CHECK(memcmp(bytes, got, sizeof bytes) == 0);
    ANSWERS(NIC_DONE, nic_take(n, 1));
    ANSWERS(NIC_NOT_LENT, nic_dma_write(n, 2047, got + 1, 2));
    ANSWERS(NIC_DONE, nic_dma_read(n, 2047, got, 1));
    CHECK(got[0] == bytes[1047]);
    ANSWERS(NIC_NOT_LENT, nic_dma_read(n, 1000, got, sizeof got));
    ANSWERS(NIC_DONE, nic_lend(n, 1));
    ANSWERS(NIC_DONE, nic_dma_read(n, 2048, got, 2048));
    for (size_t k = 0; k < 2048; k++)
        CHECK(got[k] == 0);
}

static void bad_steps(nic *n)
{
    nic_outcome outcome;
    size_t count = 9;
    for (uint32_t queue = 128; queue < 65536; queue++) {
        ANSWERS(NIC_NO_QUEUE, nic_tx_step(n, (uint16_t)queue, &outcome));
        ANSWERS(NIC_NO_QUEUE, nic_queue_step(n, queue & 1, (uint16_t)queue, &outcome));
    }
    for (uint32_t group = 1; group < 256; group++)
        ANSWERS(NIC_NO_GROUP, nic_int_step(n, (uint8_t)group, &outcome));
    ANSWERS(NIC_NO_QUEUE, nic_settle(n, UINT16_MAX, &outcome, 1, &count));
    CHECK(count == 0);
    ANSWERS(NIC_NO_QUEUE, nic_settle(n, 129, &outcome, 1, &count));
    ANSWERS(NIC_DONE, nic_settle(n, 128, &outcome, 1, &count));
    CHECK(count == 0);
    ANSWERS(NIC_MORE, nic_settle(n, 4, &outcome, 0, &count));
    CHECK(count == 0);
}

static void bad_frames(nic *n)
{
    static uint8_t frame[100000];
    nic_outcome outcome;
    uint32_t hash;
    uint8_t key[40] = {0};
    ANSWERS(NIC_DROPPED, nic_arrive(n, frame, 0, &outcome));
    ANSWERS(NIC_DROPPED, nic_arrive(n, frame, sizeof frame, &outcome));
    ANSWERS(NIC_DONE, nic_write32(n, NIC_RXCTRL, 1));
    ANSWERS(NIC_DROPPED, nic_arrive(n, frame, 0, &outcome));
    CHECK(outcome.why == NIC_WHY_SHORT);
    ANSWERS(NIC_DROPPED, nic_arrive(n, frame, sizeof frame, &outcome));
    CHECK(outcome.why == NIC_WHY_LONG);
    ANSWERS(NIC_IDLE, nic_collect(n, frame, 0, &outcome));
    ANSWERS(NIC_DONE, nic_hash(key, frame, 0, &hash));
    CHECK(hash == 0);
    ANSWERS(NIC_DONE, nic_hash(key, frame, 36, &hash));
    ANSWERS(NIC_NO_ROOM, nic_hash(key, frame, 37, &hash));
    ANSWERS(NIC_NO_ROOM, nic_hash(key, frame, sizeof frame, &hash));
}

static void bad_images(nic *n)
{
    static uint8_t bytes[65536];
    uint64_t line = 9;
    static const char syntax[] = "size 64\nword x\n", twice[] = "size 64\nword 1 2\nword 1 3\n";
    static const char reserved[] = "size 64\nword 0x3f 2\n", beyond[] = "size 64\nword 99 1\n";
    static const char outside[] = "size 64\nword 3 0x10\n";
    ANSWERS(NIC_IMAGE_BAD_SIZE, nic_install_image(n, bytes, 0));
    ANSWERS(NIC_IMAGE_ODD_LENGTH, nic_install_image(n, bytes, 1));
    ANSWERS(NIC_IMAGE_BAD_SIZE, nic_install_image(n, bytes, 2));
    ANSWERS(NIC_IMAGE_BAD_SIZE, nic_install_image(n, bytes, sizeof bytes));
    ANSWERS(NIC_IMAGE_BAD_CHECKSUM, nic_install_image(n, bytes, 128));
    ANSWERS(NIC_TEXT_SYNTAX, nic_install_text(n, bytes, 0, &line));
    ANSWERS(NIC_TEXT_SYNTAX, nic_install_text(n, (const uint8_t *)syntax, sizeof syntax - 1, &line));
    CHECK(line == 2);
    ANSWERS(NIC_TEXT_TWO_VALUES, nic_install_text(n, (const uint8_t *)twice, sizeof twice - 1, &line));
    CHECK(line == 1);
    ANSWERS(NIC_TEXT_RESERVED, nic_install_text(n, (const uint8_t *)reserved, sizeof reserved - 1, &line));
    CHECK(line == 0x3f);
    ANSWERS(NIC_TEXT_DOES_NOT_FIT, nic_install_text(n, (const uint8_t *)beyond, sizeof beyond - 1, &line));
    CHECK(line == 0);
    ANSWERS(NIC_TEXT_POINTER_OUTSIDE, nic_install_text(n, (const uint8_t *)outside, sizeof outside - 1, &line));
}

/* --- random calls --- */

static uint32_t some32(void)
{
    switch (below(4)) {
    case 0: return (uint32_t)chance();
    case 1: return below(0x14000) & ~3u;
    case 2: return UINT32_MAX - below(8);
    default: return below(300);
    }
}

static uint64_t some64(void)
{
    return below(3) ? below(40000) : chance() << below(30);
}

static nic_kept kept;

static void call_of_registers(nic *n, unsigned which)
{
    uint32_t word = 0;
    switch (which) {
    case 0: MAY(nic_read32(n, some32(), &word), NIC_DONE, NIC_STRAY); break;
    case 1: MAY(nic_write32(n, some32(), some32()), NIC_DONE, NIC_STRAY); break;
    case 2: MAY(nic_vf_read32(n, (uint8_t)chance(), some32(), &word), NIC_DONE, NIC_STRAY); break;
    case 3: MAY(nic_vf_write32(n, (uint8_t)chance(), some32(), some32()), NIC_DONE, NIC_STRAY); break;
    case 4: MAY(nic_peek32(n, some32(), &word), NIC_DONE, NIC_STRAY); break;
    default: MAY(nic_vf_peek32(n, (uint8_t)below(70), some32(), &word), NIC_DONE, NIC_STRAY);
    }
}

/* In any mode, a virtual function's offset maps to an address of the device. */
static void address_of(nic *n)
{
    uint32_t mode = some32(), address = NIC_STATUS, word = 0;
    MAY(nic_vf_address(mode, (uint8_t)below(70), some32(), &address), NIC_DONE, NIC_STRAY, NIC_NO_GROUP);
    ANSWERS(NIC_DONE, nic_peek32(n, address, &word));
}

static void call_of_memory(nic *n, unsigned which, uint8_t *bytes, size_t length)
{
    switch (which) {
    case 6: MAY(nic_lend(n, below(3) ? below(20) : some32()), NIC_DONE, NIC_NO_BLOCK); break;
    case 7: MAY(nic_take(n, below(3) ? below(20) : some32()), NIC_DONE, NIC_NOT_LENT); break;
    case 8:
        if (!below(50))
            MAY(nic_lend_all(n), NIC_DONE);
        break;
    case 9: MAY(nic_dma_read(n, some64(), bytes, length), NIC_DONE, NIC_NOT_LENT); break;
    default: MAY(nic_dma_write(n, some64(), bytes, length), NIC_DONE, NIC_NOT_LENT);
    }
}

static void call_of_frames(nic *n, unsigned which, uint8_t *bytes, size_t length)
{
    nic_outcome outcome;
    switch (which) {
    case 11: MAY(nic_arrive(n, bytes, length, &outcome), NIC_DONE, NIC_DROPPED); break;
    case 12: MAY(nic_collect(n, bytes, length, &outcome), NIC_FRAME, NIC_IDLE, NIC_NO_ROOM); break;
    case 13: CHECK(nic_next_out(n) < 20000); break;
    default: MAY(nic_link(n, below(8)), NIC_DONE, NIC_IDLE);
    }
}

static void step(nic *n, unsigned which)
{
    nic_outcome outcomes[8];
    size_t count = 0;
    switch (which) {
    case 15: MAY(nic_rx_step(n, outcomes), NIC_WROTE, NIC_DROPPED, NIC_FAULT, NIC_IDLE); break;
    case 16:
        MAY(nic_tx_step(n, (uint16_t)some32(), outcomes), NIC_ADVANCED, NIC_SENT, NIC_FAULT, NIC_IDLE, NIC_NO_QUEUE);
        break;
    case 17: MAY(nic_queue_step(n, below(2), (uint16_t)some32(), outcomes), NIC_DONE, NIC_IDLE, NIC_NO_QUEUE); break;
    case 18: MAY(nic_eeprom_step(n, outcomes), NIC_DONE, NIC_IDLE); break;
    case 19: MAY(nic_int_step(n, (uint8_t)some32(), outcomes), NIC_MESSAGE, NIC_IDLE, NIC_NO_GROUP); break;
    default:
        MAY(nic_settle(n, (uint16_t)below(140), outcomes, below(9), &count), NIC_DONE, NIC_MORE, NIC_NO_QUEUE);
        CHECK(count <= 8);
    }
}

static void keep_or_restore(nic *n, bool keeps)
{
    if (keeps && !below(200)) {
        nic_drop_snapshot(&kept);
        MAY(nic_snapshot(n, &kept), NIC_DONE);
    } else if (!keeps && kept.kept && !below(200)) {
        MAY(nic_restore(n, &kept), NIC_DONE);
    }
}

/* Lends the test's memory, and takes it back in random pieces. */
static void memory_in_place(nic *n)
{
    static uint8_t memory[4 * NIC_BLOCK_BYTES];
    uint64_t bus = below(4) ? (uint64_t)below(16) * NIC_BLOCK_BYTES : chance() * chance();
    size_t from = below(2) * NIC_BLOCK_BYTES, bytes = below(8) ? below(3) * NIC_BLOCK_BYTES : below(4096);
    if (below(2))
        MAY(nic_lend_memory(n, bus, memory + from, bytes), NIC_DONE, NIC_BAD_MEMORY, NIC_NO_BLOCK);
    else
        MAY(nic_unlend_memory(n, bus, below(8) ? bytes : SIZE_MAX - 2047), NIC_DONE, NIC_BAD_MEMORY, NIC_NOT_LENT);
}

/* The string ends within its buffer, however short the buffer is. */
static void ask_why(nic *n, uint8_t *bytes, size_t length)
{
    if (below(64)) /* (it copies all lent memory) */
        return;
    memset(bytes, 1, length);
    size_t whole = nic_why(n, (char *)bytes, length);
    CHECK(length == 0 || strlen((char *)bytes) <= whole);
    CHECK(length <= whole || strlen((char *)bytes) == whole);
}

static void next_steps(nic *n)
{
    nic_outcome outcome;
    nic_settling where = {(uint16_t)(below(8) ? below(130) : chance()), (uint16_t)chance()};
    for (int k = 0; k < 4; k++)
        MAY(nic_next_step(n, &where, &outcome), NIC_MORE, NIC_DONE, NIC_NO_QUEUE);
}

static void one_call(nic *n)
{
    static uint8_t bytes[5000 + GUARD];
    size_t length = below(4) ? below(100) : below(5000);
    uint64_t line = 0;
    uint32_t word = 0;
    uint8_t key[40];
    for (size_t k = 0; k < 48; k++)
        bytes[k] = (uint8_t)chance();
    memset(bytes + length, 0x5A, GUARD);
    memset(key, (int)below(256), sizeof key);
    unsigned which = below(30);
    if (which < 6)
        call_of_registers(n, which);
    else if (which < 11)
        call_of_memory(n, which, bytes, length);
    else if (which < 15)
        call_of_frames(n, which, bytes, length);
    else if (which < 21)
        step(n, which);
    else if (which == 21)
        MAY(nic_install_image(n, bytes, length), NIC_DONE, NIC_IMAGE_ODD_LENGTH, NIC_IMAGE_BAD_SIZE,
            NIC_IMAGE_SECTION_OUTSIDE, NIC_IMAGE_BAD_CHECKSUM, NIC_IMAGE_NOT_TRIPLES);
    else if (which == 22)
        MAY(nic_install_text(n, bytes, length, &line), NIC_TEXT_SYNTAX, NIC_TEXT_NOT_UTF8);
    else if (which < 25)
        keep_or_restore(n, which == 23);
    else if (which == 25)
        MAY(nic_hash(key, bytes, below(2) ? length : below(37), &word), NIC_DONE, NIC_NO_ROOM);
    else if (which == 26)
        memory_in_place(n);
    else if (which == 27)
        ask_why(n, bytes, length);
    else if (which == 28)
        next_steps(n);
    else
        address_of(n);
    for (size_t k = length; k < length + GUARD; k++)
        CHECK(bytes[k] == 0x5A);
}

int main(void)
{
    nic n, other;
    bad_sizes();
    closed_handles();
    ANSWERS(NIC_DONE, nic_open(&n, 4, 8, 16));
    bad_registers(&n);
    bad_memory(&n, 16);
    borders(&n);
    bad_steps(&n);
    bad_frames(&n);
    bad_images(&n);
    for (unsigned call = 0; call < CALLS; call++) {
        if (call % 20000 == 0) {
            ANSWERS(NIC_DONE, nic_open(&other, (uint8_t)below(64), (uint16_t)(1 + below(4096)), 1 + below(65536)));
            nic_close(&n);
            n = other;
        }
        one_call(&n);
    }
    nic_drop_snapshot(&kept);
    nic_drop_snapshot(&kept);
    nic_close(&n);
    printf("%d random calls\n", CALLS);
    return 0;
}
