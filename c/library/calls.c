/* The library's calls on a controller. For an open controller, each calls the proved archive's function, which
   c/library/calls.syms renames. If the controller is recorded, the call also writes a line to the recording; if the
   environment requests it, it also reports on standard error. Dropped frames are counted for nic_why. */
#include <inttypes.h>
#include <stdio.h>
#include <string.h>

#include "../in_place/lent.h"
#include "../in_place/shadow.h"
#include "../why/drops.h"
#include "catch_up.h"
#include "names.h"
#include "proved.h"
#include "recording.h"
#include "reply.h"
#include "tell.h"

enum { MOST_VFS = 63, MOST_BLOCKS = 65536, UNIT = NICL_UNIT, SHOWN = 4, QUEUES = 128 };
enum { NOTE_BYTES = 200, LINE = 64 };

#define IS_OFF __builtin_expect(!__atomic_load_n(&nicl_is_watched, __ATOMIC_RELAXED), 1)
/* A handle that was never opened, or that nic_close closed. */
#define IS_CLOSED(n) __builtin_expect(!(n)->device, 0)
#define COLD static __attribute__((noinline, cold))
/* Returns CLOSED for a closed controller. If nothing is recorded or reported, makes the call and returns its status.
   Otherwise the code after the macro makes the call and writes its line. */
#define UNLESS_WATCHED(n, call)                                                                                        \
    do {                                                                                                               \
        if (IS_CLOSED(n))                                                                                              \
            return NIC_CLOSED;                                                                                         \
        if (IS_OFF)                                                                                                    \
            return call;                                                                                               \
    } while (0)

/* --- replies, as `nicbench run` prints them --- */

static void reply(struct recording *it, const char *text)
{
    nicl_add_reply(it);
    nicl_add_text(it, text);
    nicl_add_text(it, "\n");
}

/* If the address has a register, its name follows the reply as a comment. */
static void end_with_name(struct recording *it, struct nicl_text *text, const char *name)
{
    if (name) {
        nicl_put(text, "  # ");
        nicl_put(text, name);
    }
    nicl_put(text, "\n");
    nicl_text_ends(it, text);
}

static void reply_word(struct recording *it, uint8_t status, uint32_t word, const char *name)
{
    nicl_add_reply(it);
    struct nicl_text text = nicl_text_of(it);
    nicl_put(&text, status == NIC_DONE ? "word " : "stray ");
    nicl_put_word(&text, word, 8);
    end_with_name(it, &text, name);
}

static void reply_write(struct recording *it, uint8_t status, const char *name)
{
    nicl_add_reply(it);
    struct nicl_text text = nicl_text_of(it);
    nicl_put(&text, status == NIC_DONE ? "done" : "stray 0x00000000");
    end_with_name(it, &text, name);
}

static void reply_outcome(struct recording *it, uint8_t status, const nic_outcome *outcome)
{
    nicl_add_reply(it);
    struct nicl_text text = nicl_text_of(it);
    nicl_put_reply(&text, status, outcome);
    nicl_put(&text, "\n");
    nicl_text_ends(it, &text);
}

/* Records a call that changed nothing and that a script can't make. */
static void refused(struct recording *it, const char *call, uint8_t status)
{
    nicl_add(it, "# %s: %s\n", call, nic_status_name(status));
}

/* --- creation and end --- */

uint8_t nic_new(uint8_t vfs, uint16_t fifo, uint32_t blocks, void **device)
{
    uint8_t status = nicl_new(vfs, fifo, blocks, device);
    if (status == NIC_DONE) {
        nic n = {*device};
        nicl_begin(&n, vfs, fifo, blocks);
    }
    return status;
}

void nic_free(nic n)
{
    if (IS_CLOSED(&n))
        return;
    if (!IS_OFF) {
        nicl_end(&n, nicl_enter(&n));
        nicl_leave(NULL);
    }
    nicl_forget_drops(&n);
    nicl_free_in_place(n);
}

/* --- snapshots: in a script, their lines are comments --- */

uint8_t nic_snapshot(nic *n, nic_kept *kept)
{
    UNLESS_WATCHED(n, nicl_snapshot(n, kept));
    struct recording *it = nicl_enter(n);
    nicl_before_read(it, n, 0, NICL_ALL);
    uint8_t status = nicl_snapshot(n, kept);
    if (it && status == NIC_DONE)
        nicl_add(it, "#: snapshot %" PRIu32 "\n", nicl_keep(it, kept));
    nicl_leave(it);
    return status;
}

uint8_t nic_restore(nic *n, const nic_kept *kept)
{
    if (IS_CLOSED(n) || !kept->kept)
        return NIC_CLOSED;
    uint8_t status = nicl_restore_in_place(n, kept);
    if (status == NIC_DONE)
        nicl_forget_drops(n);
    if (IS_OFF)
        return status;
    struct recording *it = nicl_enter(n);
    if (it && status == NIC_DONE) { /* 0: the snapshot is from another recording, or from none */
        nicl_add(it, "#: restore %" PRIu32 "\n", nicl_kept(it, kept));
        nicl_shadow_note(n, 0, NICL_ALL);
        nicl_may_switch(it);
    }
    nicl_leave(it);
    return status;
}

void nic_free_snapshot(nic_kept kept)
{
    if (!kept.kept)
        return;
    if (!IS_OFF) {
        uint32_t number = 0;
        struct recording *it = nicl_enter_dropped(kept, &number);
        if (it)
            nicl_add(it, "#: drop %" PRIu32 "\n", number);
        nicl_leave(it);
    }
    nicl_free_snapshot(kept);
}

/* --- registers --- */

/* Formats the line of an access: `w 0x01018 0x0000003f`, or `vw 3 0x1018 0x0000003f` for a virtual function. */
static void access_line(char line[LINE], const char *call, uint32_t address, const uint32_t *word)
{
    struct nicl_text text = nicl_text_in(line, LINE);
    nicl_put(&text, call);
    nicl_put_word(&text, address, 5);
    if (word) {
        nicl_put(&text, " ");
        nicl_put_word(&text, *word, 8);
    }
}

static void vf_line(char line[LINE], const char *call, uint8_t vf, uint32_t offset, const uint32_t *word)
{
    struct nicl_text text = nicl_text_in(line, LINE);
    nicl_put(&text, call);
    nicl_put_number(&text, vf);
    nicl_put(&text, " ");
    nicl_put_word(&text, offset, 4);
    if (word) {
        nicl_put(&text, " ");
        nicl_put_word(&text, *word, 8);
    }
}

COLD uint8_t read_register(nic *n, uint32_t address, uint32_t *word)
{
    char line[LINE], room[NICL_NAME];
    struct recording *it = nicl_enter(n);
    uint8_t status = nicl_read32(n, address, word);
    access_line(line, "r ", address, NULL);
    if (it) {
        nicl_add_text(it, line);
        reply_word(it, status, *word, nicl_register(address, room));
    }
    if (status == NIC_STRAY)
        nicl_tell_stray(n, address, line);
    nicl_leave(it);
    return status;
}

uint8_t nic_read32(nic *n, uint32_t address, uint32_t *word)
{
    UNLESS_WATCHED(n, nicl_read32(n, address, word));
    return read_register(n, address, word);
}

COLD uint8_t write_register(nic *n, uint32_t address, uint32_t word)
{
    char line[LINE], room[NICL_NAME];
    struct recording *it = nicl_enter(n);
    uint8_t status = nicl_write32(n, address, word);
    access_line(line, "w ", address, &word);
    if (it) {
        nicl_add_text(it, line);
        reply_write(it, status, nicl_register(address, room));
    }
    if (status == NIC_STRAY)
        nicl_tell_stray(n, address, line);
    nicl_leave(it);
    return status;
}

uint8_t nic_write32(nic *n, uint32_t address, uint32_t word)
{
    UNLESS_WATCHED(n, nicl_write32(n, address, word));
    return write_register(n, address, word);
}

COLD uint8_t read_vf(nic *n, uint8_t vf, uint32_t offset, uint32_t *word)
{
    char line[LINE], room[NICL_NAME];
    struct recording *it = nicl_enter(n);
    uint8_t status = nicl_vf_read32(n, vf, offset, word);
    vf_line(line, "vr ", vf, offset, NULL);
    if (it && vf < MOST_VFS) {
        nicl_add_text(it, line);
        reply_word(it, status, *word, nicl_offset(offset, room));
    } else if (it) {
        refused(it, "a register read by a virtual function above 62", status);
    }
    if (status == NIC_STRAY)
        nicl_tell_vf_stray(n, vf, offset, line);
    nicl_leave(it);
    return status;
}

uint8_t nic_vf_read32(nic *n, uint8_t vf, uint32_t offset, uint32_t *word)
{
    UNLESS_WATCHED(n, nicl_vf_read32(n, vf, offset, word));
    return read_vf(n, vf, offset, word);
}

COLD uint8_t write_vf(nic *n, uint8_t vf, uint32_t offset, uint32_t word)
{
    char line[LINE], room[NICL_NAME];
    struct recording *it = nicl_enter(n);
    uint8_t status = nicl_vf_write32(n, vf, offset, word);
    vf_line(line, "vw ", vf, offset, &word);
    if (it && vf < MOST_VFS) {
        nicl_add_text(it, line);
        reply_write(it, status, nicl_offset(offset, room));
    } else if (it) {
        refused(it, "a register write by a virtual function above 62", status);
    }
    if (status == NIC_STRAY)
        nicl_tell_vf_stray(n, vf, offset, line);
    nicl_leave(it);
    return status;
}

uint8_t nic_vf_write32(nic *n, uint8_t vf, uint32_t offset, uint32_t word)
{
    UNLESS_WATCHED(n, nicl_vf_write32(n, vf, offset, word));
    return write_vf(n, vf, offset, word);
}

/* --- reads without side effects, which aren't recorded --- */

uint8_t nic_peek32(nic *n, uint32_t address, uint32_t *word)
{
    return IS_CLOSED(n) ? (uint8_t)NIC_CLOSED : nicl_peek32(n, address, word);
}

uint8_t nic_vf_peek32(nic *n, uint8_t vf, uint32_t offset, uint32_t *word)
{
    return IS_CLOSED(n) ? (uint8_t)NIC_CLOSED : nicl_vf_peek32(n, vf, offset, word);
}

size_t nic_next_out(nic *n)
{
    return IS_CLOSED(n) ? 0 : nicl_next_out(n);
}

/* --- packet memory --- */

static void moved(struct recording *it, const char *call, uint32_t block, uint8_t status)
{
    if (block >= MOST_BLOCKS || status == NIC_OUT_OF_MEMORY) {
        refused(it, call, status);
        return;
    }
    if (*call == 'l' && status == NIC_DONE) {
        nicl_add_lent(it, block);
        return;
    }
    nicl_add(it, "%s %" PRIu32, call, block);
    if (*call == 'u' && status == NIC_DONE) {
        nicl_add_reply(it);
        nicl_add(it, "taken %" PRIu32 "\n", block);
    } else {
        reply(it, nic_status_name(status));
    }
}

uint8_t nic_lend(nic *n, uint32_t block)
{
    UNLESS_WATCHED(n, nicl_lend(n, block));
    struct recording *it = nicl_enter(n);
    uint8_t status = nicl_lend(n, block);
    if (it)
        moved(it, "lend", block, status);
    nicl_leave(it);
    return status;
}

uint8_t nic_take(nic *n, uint32_t block)
{
    UNLESS_WATCHED(n, nicl_take_in_place(n, block));
    struct recording *it = nicl_enter(n);
    uint8_t status = nicl_take_in_place(n, block);
    if (it)
        moved(it, "unlend", block, status);
    nicl_leave(it);
    return status;
}

/* Records the range as if each block were lent or taken by itself. */
static void moved_range(struct recording *it, const char *call, uint64_t bus, size_t bytes, uint8_t status)
{
    uint64_t first = bus / NIC_BLOCK_BYTES, end = first + bytes / NIC_BLOCK_BYTES;
    if (status != NIC_DONE)
        refused(it, call, status);
    for (uint64_t block = first; status == NIC_DONE && block < end; block++)
        moved(it, call, (uint32_t)block, status);
}

uint8_t nic_lend_memory(nic *n, uint64_t bus, void *memory, size_t bytes)
{
    UNLESS_WATCHED(n, nicl_lend_memory(n, bus, memory, bytes));
    struct recording *it = nicl_enter(n);
    uint8_t status = nicl_lend_memory(n, bus, memory, bytes);
    if (it)
        moved_range(it, "lend", bus, bytes, status);
    if (it && status == NIC_DONE && bytes)
        nicl_add(it, "#: in place %" PRIu64 " to %" PRIu64 "\n", bus / NIC_BLOCK_BYTES,
                 (bus + bytes - 1) / NIC_BLOCK_BYTES);
    nicl_leave(it);
    return status;
}

uint8_t nic_unlend_memory(nic *n, uint64_t bus, size_t bytes)
{
    UNLESS_WATCHED(n, nicl_unlend_memory(n, bus, bytes));
    struct recording *it = nicl_enter(n);
    uint8_t status = nicl_unlend_memory(n, bus, bytes);
    if (it)
        moved_range(it, "unlend", bus, bytes, status);
    nicl_leave(it);
    return status;
}

/* Lends block by block, as the call itself does, so that exactly the blocks that it lends are recorded. */
COLD uint8_t lend_all(nic *n)
{
    struct recording *it = nicl_enter(n);
    uint8_t status = NIC_DONE;
    for (uint32_t block = 0; it && block < MOST_BLOCKS && status != NIC_OUT_OF_MEMORY; block++) {
        status = nicl_lend(n, block);
        if (status == NIC_DONE)
            moved(it, "lend", block, status);
    }
    if (status != NIC_OUT_OF_MEMORY)
        status = nicl_lend_all(n);
    nicl_leave(it);
    return status;
}

uint8_t nic_lend_all(nic *n)
{
    UNLESS_WATCHED(n, nicl_lend_all(n));
    return lend_all(n);
}

/* Returns a range's first 16-byte unit that isn't lent, or the range's first unit if all of them are lent. */
static uint64_t not_lent(nic *n, uint64_t bus, size_t length)
{
    uint8_t unit[UNIT];
    uint64_t first = bus & ~(uint64_t)(UNIT - 1);
    for (uint64_t at = first; at < first + length + UNIT; at += UNIT)
        if (nicl_dma_read(n, at, unit, UNIT) != NIC_DONE)
            return at;
    return first;
}

static void peeked(struct recording *it, uint64_t at, unsigned word, const uint8_t unit[UNIT])
{
    struct nicl_text text = nicl_text_of(it);
    nicl_put(&text, "peek ");
    nicl_put_word(&text, at, 5);
    nicl_put(&text, " ");
    nicl_put_number(&text, word);
    nicl_text_ends(it, &text);
    nicl_add_reply(it);
    nicl_add_text(it, "bytes ");
    nicl_add_hex(it, unit, UNIT);
    nicl_add_text(it, "\n");
}

/* A successful read is recorded as a peek of each 16-byte unit that it touches, up to the fourth. */
COLD uint8_t read_memory(nic *n, uint64_t bus, uint8_t *bytes, size_t length)
{
    uint8_t unit[UNIT];
    struct recording *it = nicl_enter(n);
    nicl_before_read(it, n, bus, length);
    uint8_t status = nicl_dma_read(n, bus, bytes, length);
    uint64_t first = bus & ~(uint64_t)(UNIT - 1);
    if (it && status != NIC_DONE && (bus > UINT32_MAX || length > UINT32_MAX)) {
        refused(it, "a memory read", status);
    } else if (it && status != NIC_DONE) {
        nicl_add(it, "peek 0x%05" PRIx64 " 0", not_lent(n, bus, length));
        reply(it, nic_status_name(status));
    } else if (it && length) {
        for (uint64_t at = first; at < bus + length && at < first + SHOWN * UNIT; at += UNIT) {
            nicl_dma_read(n, at, unit, UNIT);
            peeked(it, at, at < bus ? (unsigned)(bus / 4 % 4) : 0u, unit);
        }
    }
    nicl_leave(it);
    return status;
}

uint8_t nic_dma_read(nic *n, uint64_t bus, uint8_t *bytes, size_t length)
{
    UNLESS_WATCHED(n, nicl_dma_read(n, bus, bytes, length));
    return read_memory(n, bus, bytes, length);
}

static void poke(struct recording *it, uint64_t at, const uint8_t unit[UNIT], uint8_t status)
{
    uint32_t name = nicl_add_data(it, unit, UNIT);
    nicl_add_poke(it, at, name);
    reply(it, nic_status_name(status));
}

/* A write is recorded as a poke of each 16-byte unit that it touches, with its contents after the write. */
COLD uint8_t write_memory(nic *n, uint64_t bus, const uint8_t *bytes, size_t length)
{
    uint8_t unit[UNIT] = {0};
    struct recording *it = nicl_enter(n);
    uint8_t status = nicl_dma_write(n, bus, bytes, length);
    if (it && status != NIC_DONE && (bus > UINT32_MAX || length > UINT32_MAX)) {
        refused(it, "a memory write", status);
    } else if (it && status != NIC_DONE) {
        poke(it, not_lent(n, bus, length), unit, status);
    } else if (it && length) {
        for (uint64_t at = bus & ~(uint64_t)(UNIT - 1); at < bus + length; at += UNIT) {
            nicl_dma_read(n, at, unit, UNIT);
            poke(it, at, unit, status);
            nicl_shadow_note(n, at, UNIT);
        }
    }
    nicl_leave(it);
    return status;
}

uint8_t nic_dma_write(nic *n, uint64_t bus, const uint8_t *bytes, size_t length)
{
    UNLESS_WATCHED(n, nicl_dma_write(n, bus, bytes, length));
    return write_memory(n, bus, bytes, length);
}

/* --- the link --- */

COLD void drop(const nic *n, uint8_t why, const uint8_t *frame, size_t length)
{
    nicl_note_drop(n, why, frame, length);
}

COLD uint8_t arrive(nic *n, const uint8_t *frame, size_t length, nic_outcome *outcome)
{
    struct recording *it = nicl_enter(n);
    uint8_t status = nicl_arrive(n, frame, length, outcome);
    if (it && status == NIC_OUT_OF_MEMORY) {
        refused(it, "arrive", status);
    } else if (it) {
        nicl_add_number(it, "arrive d", nicl_add_data(it, frame, length), "");
        reply_outcome(it, status, outcome);
    }
    if (status == NIC_DROPPED)
        drop(n, outcome->why, frame, length);
    nicl_tell_arrival(n, outcome, frame);
    nicl_leave(it);
    return status;
}

uint8_t nic_arrive(nic *n, const uint8_t *frame, size_t length, nic_outcome *outcome)
{
    if (IS_CLOSED(n))
        return NIC_CLOSED;
    if (!IS_OFF)
        return arrive(n, frame, length, outcome);
    uint8_t status = nicl_arrive(n, frame, length, outcome);
    if (status == NIC_DROPPED)
        drop(n, outcome->why, frame, length);
    return status;
}

COLD uint8_t collect(nic *n, uint8_t *room, size_t length, nic_outcome *outcome)
{
    struct recording *it = nicl_enter(n);
    uint8_t status = nicl_collect(n, room, length, outcome);
    if (it && status == NIC_FRAME) {
        nicl_add_text(it, "collect");
        nicl_add_reply(it);
        nicl_add_number(it, "frame queue ", outcome->queue, " ");
        nicl_add_hex(it, room, (size_t)outcome->len);
        nicl_add_text(it, "\n");
    } else if (it && status == NIC_IDLE) {
        nicl_add_text(it, "collect");
        reply(it, "idle");
    } else if (it) {
        refused(it, "collect", status);
    }
    nicl_leave(it);
    return status;
}

uint8_t nic_collect(nic *n, uint8_t *room, size_t length, nic_outcome *outcome)
{
    UNLESS_WATCHED(n, nicl_collect(n, room, length, outcome));
    return collect(n, room, length, outcome);
}

uint8_t nic_link(nic *n, bool up)
{
    UNLESS_WATCHED(n, nicl_link(n, up));
    struct recording *it = nicl_enter(n);
    uint8_t status = nicl_link(n, up);
    if (it) {
        nicl_add(it, "link %s", up ? "up" : "down");
        reply(it, nic_status_name(status));
    }
    nicl_leave(it);
    return status;
}

/* --- steps --- */

/* Counts a frame that a step may have dropped; at this point only the reason is known. */
static uint8_t counted(const nic *n, uint8_t status, const nic_outcome *outcome)
{
    if (__builtin_expect(status == NIC_DROPPED, 0))
        drop(n, outcome->why, NULL, 0);
    return status;
}

/* Records what a step did. A step that found no memory did nothing. */
static uint8_t stepped(struct recording *it, uint8_t status, const nic_outcome *outcome, const char *line)
{
    if (it && status == NIC_OUT_OF_MEMORY) {
        refused(it, line, status);
    } else if (it) {
        nicl_add_text(it, line);
        reply_outcome(it, status, outcome);
    }
    nicl_leave(it);
    return status;
}

COLD uint8_t receive_step(nic *n, nic_outcome *outcome)
{
    struct recording *it = nicl_enter(n);
    nicl_before_receive(it, n);
    uint8_t status = counted(n, nicl_rx_step(n, outcome), outcome);
    nicl_after_step(it, n, outcome);
    nicl_tell_step(n, outcome, false);
    return stepped(it, status, outcome, "rx");
}

uint8_t nic_rx_step(nic *n, nic_outcome *outcome)
{
    UNLESS_WATCHED(n, counted(n, nicl_rx_step(n, outcome), outcome));
    return receive_step(n, outcome);
}

COLD uint8_t transmit_step(nic *n, uint16_t queue, nic_outcome *outcome)
{
    char line[16];
    struct recording *it = nicl_enter(n);
    struct nicl_text text = nicl_text_in(line, sizeof line);
    nicl_put(&text, "tx ");
    nicl_put_number(&text, queue);
    nicl_before_transmit(it, n, queue);
    uint8_t status = nicl_tx_step(n, queue, outcome);
    if (status != NIC_NO_QUEUE && status != NIC_OUT_OF_MEMORY) {
        nicl_after_step(it, n, outcome);
        nicl_tell_step(n, outcome, true);
    }
    return stepped(it, status, outcome, line);
}

uint8_t nic_tx_step(nic *n, uint16_t queue, nic_outcome *outcome)
{
    UNLESS_WATCHED(n, nicl_tx_step(n, queue, outcome));
    return transmit_step(n, queue, outcome);
}

uint8_t nic_queue_step(nic *n, bool transmit, uint16_t queue, nic_outcome *outcome)
{
    UNLESS_WATCHED(n, nicl_queue_step(n, transmit, queue, outcome));
    char line[24];
    struct recording *it = nicl_enter(n);
    nicl_may_switch(it);
    snprintf(line, sizeof line, "qstep %s %u", transmit ? "tx" : "rx", queue);
    return stepped(it, nicl_queue_step(n, transmit, queue, outcome), outcome, line);
}

uint8_t nic_eeprom_step(nic *n, nic_outcome *outcome)
{
    UNLESS_WATCHED(n, nicl_eeprom_step(n, outcome));
    struct recording *it = nicl_enter(n);
    return stepped(it, nicl_eeprom_step(n, outcome), outcome, "eestep");
}

static void group_line(uint16_t group, char line[24])
{
    if (group)
        snprintf(line, 24, "int %u", group - 1u);
    else
        snprintf(line, 24, "int pf");
}

uint8_t nic_int_step(nic *n, uint8_t group, nic_outcome *outcome)
{
    UNLESS_WATCHED(n, nicl_int_step(n, group, outcome));
    char line[24];
    struct recording *it = nicl_enter(n);
    uint8_t status = nicl_int_step(n, group, outcome);
    group_line(group, line);
    if (it && group > MOST_VFS) {
        refused(it, "int of a virtual function above 62", status);
        nicl_leave(it);
        return status;
    }
    return stepped(it, status, outcome, line);
}

/* Records a step that nic_settle ran. */
static void settled(struct recording *it, const nic_outcome *outcome)
{
    char line[24];
    switch (outcome->step) {
    case NIC_RX_ENABLE:
    case NIC_TX_ENABLE:
    case NIC_TRANSMIT: snprintf(line, sizeof line, "%s %u", nic_step_name(outcome->step), outcome->of); break;
    case NIC_INTERRUPT: group_line(outcome->of, line); break;
    default: snprintf(line, sizeof line, "%s", nic_step_name(outcome->step)); break;
    }
    nicl_add_text(it, line);
    reply_outcome(it, outcome->status, outcome);
}

/* Counts the frames dropped by the steps of nic_settle. */
static void count_drops(const nic *n, const nic_outcome *outcome, size_t count)
{
    for (const nic_outcome *end = outcome + count; outcome < end; outcome++)
        counted(n, outcome->status, outcome);
}

COLD uint8_t settle(nic *n, uint16_t queues, nic_outcome *outcome, size_t length, size_t *count)
{
    struct recording *it = nicl_enter(n);
    nicl_before_settle(it, n, queues);
    uint8_t status = nicl_settle(n, queues, outcome, length, count);
    for (size_t k = 0; k < *count; k++) {
        nicl_after_step(it, n, &outcome[k]);
        nicl_tell_step(n, &outcome[k], outcome[k].step == NIC_TRANSMIT);
        if (it)
            settled(it, &outcome[k]);
    }
    nicl_leave(it);
    return status;
}

uint8_t nic_settle(nic *n, uint16_t queues, nic_outcome *outcome, size_t length, size_t *count)
{
    *count = 0;
    if (IS_CLOSED(n))
        return NIC_CLOSED;
    uint8_t status =
        IS_OFF ? nicl_settle(n, queues, outcome, length, count) : settle(n, queues, outcome, length, count);
    count_drops(n, outcome, *count);
    return status;
}

/* --- the steps of nic_settle, run singly --- */

enum { GROUPS = 64 };

/* Runs the step at a position in the round. After the first group that doesn't exist, no other group exists. */
static uint8_t step_at(nic *n, uint16_t queues, uint16_t at, nic_outcome *outcome)
{
    uint16_t enables = (uint16_t)(2 * queues), place = (uint16_t)(at - enables);
    if (at < enables)
        return nicl_queue_step(n, at % 2, at / 2, outcome);
    if (place == 0)
        return nicl_eeprom_step(n, outcome);
    if (place <= queues)
        return nicl_tx_step(n, (uint16_t)(place - 1), outcome);
    if (place == queues + 1)
        return nicl_rx_step(n, outcome);
    return nicl_int_step(n, (uint8_t)(place - queues - 2), outcome);
}

/* Stores the kind of this step. */
static void name_step(uint16_t queues, uint16_t at, nic_outcome *outcome)
{
    uint16_t enables = (uint16_t)(2 * queues), place = (uint16_t)(at - enables);
    if (at < enables) {
        outcome->step = at % 2 ? NIC_TX_ENABLE : NIC_RX_ENABLE;
        outcome->of = at / 2;
    } else if (place == 0) {
        outcome->step = NIC_EEPROM;
    } else if (place <= queues) {
        outcome->step = NIC_TRANSMIT;
        outcome->of = (uint16_t)(place - 1);
    } else if (place == queues + 1) {
        outcome->step = NIC_RECEIVE;
    } else {
        outcome->step = NIC_INTERRUPT;
        outcome->of = (uint16_t)(place - queues - 2);
    }
}

/* Tries the steps in order until one has something to do, or until no step in a whole round had. */
static uint8_t next_step(nic *n, nic_settling *where, nic_outcome *outcome)
{
    uint16_t places = (uint16_t)(3 * where->queues + 2 + GROUPS);
    for (uint16_t idle = 0; idle < places; idle++) {
        uint16_t at = where->at < places ? where->at : 0;
        uint8_t status = step_at(n, where->queues, at, outcome);
        if (status == NIC_OUT_OF_MEMORY || status == NIC_BROKEN)
            return status;
        if (status == NIC_NO_GROUP) {
            idle = (uint16_t)(idle + places - at - 1);
            at = (uint16_t)(places - 1);
        }
        where->at = (uint16_t)(at + 1);
        if (status != NIC_IDLE && status != NIC_NO_GROUP) {
            name_step(where->queues, at, outcome);
            return NIC_MORE;
        }
    }
    where->at = 0;
    return NIC_DONE;
}

COLD uint8_t watched_step(nic *n, nic_settling *where, nic_outcome *outcome)
{
    struct recording *it = nicl_enter(n);
    nicl_before_settle(it, n, where->queues);
    uint8_t status = next_step(n, where, outcome);
    if (status == NIC_MORE) {
        nicl_after_step(it, n, outcome);
        nicl_tell_step(n, outcome, outcome->step == NIC_TRANSMIT);
        if (it)
            settled(it, outcome);
    }
    nicl_leave(it);
    return status;
}

uint8_t nic_next_step(nic *n, nic_settling *where, nic_outcome *outcome)
{
    if (IS_CLOSED(n))
        return NIC_CLOSED;
    if (where->queues > QUEUES)
        return NIC_NO_QUEUE;
    uint8_t status = IS_OFF ? next_step(n, where, outcome) : watched_step(n, where, outcome);
    if (status == NIC_MORE)
        counted(n, outcome->status, outcome);
    return status;
}

/* --- the program's notes --- */

COLD void note(struct recording *it, const char *text)
{
    char shown[NOTE_BYTES + 1];
    size_t length = 0;
    for (; text[length] && length < NOTE_BYTES; length++)
        shown[length] = text[length] >= ' ' && text[length] <= '~' ? text[length] : '?';
    shown[length] = 0;
    nicl_add(it, "# note: %s\n", shown);
}

uint8_t nic_note(nic *n, const char *text)
{
    UNLESS_WATCHED(n, NIC_DONE);
    struct recording *it = nicl_enter(n);
    if (it)
        note(it, text);
    nicl_leave(it);
    return NIC_DONE;
}

/* --- the EEPROM: a script can't install an image, so these lines are comments too --- */

static void installed(struct recording *it, const char *form, const uint8_t *bytes, size_t length, uint8_t status)
{
    if (it && status == NIC_DONE) {
        nicl_add(it, "#: %s ", form);
        nicl_add_hex(it, bytes, length);
        nicl_add(it, "\n");
    } else if (it) {
        refused(it, "an EEPROM image", status);
    }
    nicl_leave(it);
}

uint8_t nic_install_image(nic *n, const uint8_t *bytes, size_t length)
{
    UNLESS_WATCHED(n, nicl_install_image(n, bytes, length));
    struct recording *it = nicl_enter(n);
    uint8_t status = nicl_install_image(n, bytes, length);
    installed(it, "image", bytes, length, status);
    return status;
}

uint8_t nic_install_text(nic *n, const uint8_t *text, size_t length, uint64_t *line)
{
    *line = 0;
    if (IS_CLOSED(n))
        return NIC_CLOSED;
    if (IS_OFF)
        return nicl_install_text(n, text, length, line);
    struct recording *it = nicl_enter(n);
    uint8_t status = nicl_install_text(n, text, length, line);
    installed(it, "text", text, length, status);
    return status;
}
