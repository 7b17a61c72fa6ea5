/* A model of the Intel 82599 10 GbE controller to run driver code on. The registers, rings and interrupts are in the
   driver's process: you need no card, guest or kernel. One definition of the device, written in Rattle, specifies
   what each call returns, and the calls are proved against it. docs/CARD.md lists where the definition differs from the
   card. The public source for the card is the Intel 82599 10 GbE Controller Datasheet (331520).

   How to use it: nic_open makes a controller. Read and write registers by address (NIC_RXDCTL(3), or a number). Lend
   blocks of packet memory to the device; it touches no other memory. nic_arrive puts a frame on the link, and
   nic_collect takes a sent frame from it. Nothing happens by itself: the device acts in steps, and each step is a call,
   so a race is an order of calls. nic_settle runs all steps that have work to do.

   Threads: handles aren't thread-safe. Use each handle from one thread only, or take your own lock around each call.
   Two handles share nothing, so each may have its own thread. No call waits or calls back. Don't call the library from
   the handler of a signal that can arrive during a call. The handler of a fault that the driver's own load or store
   raised may call the library on the faulting thread.

   Pointers: none may be null, even for a buffer of length 0. Each must point to an object of its type. A buffer has as
   many bytes or items as the length argument after it says, and buffers must not overlap. If a controller was closed by
   nic_close or never opened ({0}), every call with it returns CLOSED. The same holds for a snapshot that was dropped or
   never taken. Closing one copy of the struct doesn't change the other copies, so don't use them any longer. Every
   other argument may have any value: the call checks it and returns a status. */
#ifndef NIC82599_H
#define NIC82599_H

#include <stdbool.h>
#include <stddef.h>
#include <stdint.h>

#include "nic82599_desc.h"
#include "nic82599_regs.h"
#include "nic82599_version.h"

#ifdef __cplusplus
extern "C" {
#endif

/* A controller. `device` is an opaque handle, and null before nic_open and after nic_close. A copy of the struct is the
   same controller, so close only one of them. */
typedef struct nic {
    void *device;
} nic;

/* A snapshot of a controller. `kept` is an opaque handle, and null before nic_snapshot and after nic_drop_snapshot. A
   copy of the struct is the same snapshot, so drop only one of them. */
typedef struct nic_kept {
    void *kept;
} nic_kept;

/* The status of a call, as uint8_t. */
enum nic_status {
    /* the device's replies, each with the fields of nic_outcome that it sets after the colon. NOT_LENT, NO_QUEUE and
       NO_GROUP refuse the call and change nothing */
    NIC_DONE = 0,      /* done; for a read, the word is the register's value */
    NIC_STRAY = 1,     /* no register there; a read returns what a driver would see, a write changes nothing */
    NIC_IDLE = 2,      /* nothing to do */
    NIC_DROPPED = 3,   /* a frame was dropped: why */
    NIC_WROTE = 4,     /* one buffer's worth of a frame was written: queue, slot, end, desc, at, len */
    NIC_ADVANCED = 5,  /* a transmit slot was fetched but no frame was sent: queue, slot, back, at */
    NIC_SENT = 6,      /* a frame was sent: queue, len, back, at */
    NIC_FAULT = 7,     /* a slot can't be processed, so its side of the queue is now off: queue, why, bus */
    NIC_MESSAGE = 8,   /* an interrupt message was sent: group, vector */
    NIC_FRAME = 9,     /* a sent frame was collected: queue, len */
    NIC_NOT_LENT = 16, /* the block with this number, or a block at these bus addresses, isn't lent */
    NIC_NO_QUEUE = 18, /* the queue isn't below 128 */
    NIC_NO_GROUP = 19, /* there is no such virtual function, or the mode has no pool for it */
    /* refusals: nothing changes, not even what the pointers point to, except that *line may change and *count becomes
       0. Two calls can stop halfway and keep what they did: nic_settle with MORE or OUT_OF_MEMORY, and nic_lend_all
       with OUT_OF_MEMORY */
    NIC_OUT_OF_MEMORY = 32,
    NIC_NO_ROOM = 33,      /* nic_collect: the buffer is too small, so the frame stays; nic_hash: input too long */
    NIC_TOO_MANY_VFS = 34, /* nic_new: `vfs` is above 63 */
    NIC_BAD_FIFO = 35,     /* nic_new: `fifo` isn't 1 to 4,096 */
    NIC_BAD_BLOCKS = 36,   /* nic_new: `blocks` isn't 1 to 65,536 */
    NIC_NO_BLOCK = 37,     /* nic_lend: the block is already lent or doesn't exist */
    NIC_MORE = 38,         /* nic_settle: the array is full, so steps may remain; nic_next_step: a step ran */
    NIC_BAD_MEMORY = 39,   /* nic_lend_memory: not a multiple of 2,048, or bytes already lent to this controller */
    NIC_CLOSED = 40,       /* the controller or the snapshot isn't open: it was closed or never opened */
    NIC_BROKEN = 41,       /* the library hit an internal fault, which it names on standard error, and may have changed
                              this controller only in part: all later calls return this status. nic_unlend_memory still
                              takes the caller's memory back, and nic_close closes the controller. A proved library has
                              no such fault */
    /* an EEPROM image or its textual description is invalid, for the first of these reasons that applies; the previous
       image stays */
    NIC_IMAGE = 64, /* base of the following statuses */
    NIC_IMAGE_ODD_LENGTH = 65,
    NIC_IMAGE_BAD_SIZE = 66,        /* not 64, 128, .. 16,384 words */
    NIC_IMAGE_SECTION_OUTSIDE = 67, /* a pointer's section is outside the image */
    NIC_IMAGE_BAD_CHECKSUM = 68,
    NIC_IMAGE_NOT_TRIPLES = 69,     /* the CSR section's length isn't a multiple of three words */
    NIC_TEXT = 96,                  /* base of the following statuses */
    NIC_TEXT_SYNTAX = 97,           /* in line *line, counted from 1 */
    NIC_TEXT_TWO_VALUES = 98,       /* two lines set the word with index *line */
    NIC_TEXT_RESERVED = 99,         /* the description can't set the word with index *line */
    NIC_TEXT_DOES_NOT_FIT = 100,    /* an index or the CSR section exceeds the size */
    NIC_TEXT_POINTER_OUTSIDE = 101, /* a pointer is below 0x40, or its section is outside the image */
    NIC_TEXT_NOT_UTF8 = 102
};

/* Why a frame was dropped (nic_outcome.why with NIC_DROPPED). */
enum nic_why {
    NIC_WHY_LINK_DOWN = 1,
    NIC_WHY_OFF = 2,    /* RXCTRL bit 0 is 0 */
    NIC_WHY_SHORT = 3,  /* fewer than 60 bytes */
    NIC_WHY_LONG = 4,   /* longer than the frame limit */
    NIC_WHY_FILTER = 5, /* no filter accepts the destination */
    NIC_WHY_NO_POOL = 6,
    NIC_WHY_POOL_OFF = 7,  /* VFRE disables the frame's pool */
    NIC_WHY_FULL = 8,      /* `fifo` frames are already waiting */
    NIC_WHY_QUEUE_OFF = 9, /* a receive step: the queue is off */
    NIC_WHY_NO_SLOT = 10   /* a receive step: the device owns no slot, and SRRCTL.DROP_EN is set */
};

/* Why a slot can't be processed (nic_outcome.why with NIC_FAULT). */
enum nic_fault {
    NIC_FAULT_OUTSIDE = 1,        /* the head or the tail isn't a slot of the ring */
    NIC_FAULT_NOT_LENT = 2,       /* the memory isn't lent: nic_outcome.bus */
    NIC_FAULT_TYPE = 3,           /* SRRCTL's descriptor type isn't "advanced, one buffer" */
    NIC_FAULT_NO_BUFFER_SIZE = 4, /* SRRCTL's buffer size is 0 */
    NIC_FAULT_OFFLOAD = 5,        /* a transmit descriptor requests segmentation, VLAN insertion or a checksum */
    NIC_FAULT_LEGACY = 6,         /* a legacy transmit descriptor */
    NIC_FAULT_TOO_LONG = 7,       /* the frame exceeds the frame limit */
    NIC_FAULT_UNKNOWN_TYPE = 8    /* neither a data nor a context descriptor */
};

/* The steps of the device, as nic_settle reports them. */
enum nic_step {
    NIC_RX_ENABLE = 0, /* nic_queue_step, receive side of queue `of` */
    NIC_TX_ENABLE = 1, /* nic_queue_step, transmit side of queue `of` */
    NIC_EEPROM = 2,    /* nic_eeprom_step */
    NIC_TRANSMIT = 3,  /* nic_tx_step of queue `of` */
    NIC_RECEIVE = 4,   /* nic_rx_step */
    NIC_INTERRUPT = 5  /* nic_int_step of group `of` */
};

/* What an event reports. Fields that its status doesn't set are 0. */
typedef struct nic_outcome {
    uint64_t desc; /* WROTE: bus address of the descriptor written back */
    /* WROTE: bus address of the first byte written; ADVANCED, SENT: if `back` is 1, bus address of the descriptor or
       the head written back */
    uint64_t at;
    uint64_t len;   /* WROTE, SENT, FRAME: number of bytes, padding included */
    uint64_t bus;   /* FAULT, for memory that isn't lent: its bus address */
    uint16_t queue; /* WROTE, ADVANCED, SENT, FAULT, FRAME: below 128 */
    uint16_t slot;  /* WROTE, ADVANCED: slot of the ring */
    uint16_t group; /* MESSAGE: 0 for the physical function, v + 1 for virtual function v */
    uint16_t of;    /* set by nic_settle and nic_next_step: queue or group of the step, else 0 */
    uint8_t status; /* enum nic_status, as the call returns it */
    uint8_t step;   /* set by nic_settle and nic_next_step: enum nic_step */
    uint8_t end;    /* WROTE: 1 if the frame ends in this buffer */
    uint8_t back;   /* ADVANCED, SENT: 1 if something was written back */
    uint8_t why;    /* DROPPED: enum nic_why; FAULT: enum nic_fault */
    uint8_t vector; /* MESSAGE: below 16 */
} nic_outcome;

/* --- version and edition --- */

/* Returns the version of the library as three numbers, such as "1.2.3". NIC82599_VERSION is the version of this
   header. */
const char *nic_version(void);

/* Returns whether the device in this library was proved: true if the prover accepted every function in it, false if it
   was compiled from the same sources without proofs. */
bool nic_is_proved(void);

/* Returns the edition of this library: "proved" as above; "plain" if a Rust compiler built it from the same sources
   without their proofs; "unproved" if Rattle's compiler did. */
const char *nic_edition(void);

/* --- reports on standard error --- */

/* If the environment variable NIC82599_TELL is set (for example NIC82599_TELL=1), the library reports faults, drops and
   stray accesses of all controllers on standard error when they happen. It prints the first of each kind with its
   reason, then the 10th, the 100th and so on. It prints the total when the controller is closed or the process ends.
   The variable is read when the first controller is made. */

/* --- recordings --- */

/* Records each controller created after this call. Whenever a call returns, its event is written to a file as a line of
   the script language, with the reply as a comment, so a crash loses no completed call. The first controller is
   recorded in the file with this name, the next ones in NAME.2, NAME.3 and so on; %p in the name stands for the process
   ID. View a recording with `tools/nicview FILE` (docs/views.md). A null `path` ends all recordings. Returns false if
   the file can't be written: then a line on standard error says so, and nothing is recorded. If you don't call this
   function, the environment variable NIC82599_RECORD sets the name. Recording serializes the calls of all recorded
   controllers. A child of fork records the controllers that it creates itself, if the name contains %p. */
bool nic_record(const char *path);

/* Writes a comment into this controller's recording, in front of the next event, for information that the events don't
   show, such as the purpose of a block. `tools/nicview` shows it next to the next step. The comment is truncated to 200
   bytes; a byte that isn't printable ASCII is written as `?`. Returns DONE, even if the controller isn't recorded. */
uint8_t nic_note(nic *n, const char *text);

/* --- creation and end --- */

/* Creates a controller in its power-up state: `vfs` virtual functions (at most 63), room for `fifo` frames waiting to
   be received (1 to 4,096), and `blocks` blocks of packet memory (1 to 65,536), numbered from 0 and none of them lent.
   Returns DONE and stores the controller in *device, or BAD_BLOCKS, TOO_MANY_VFS, BAD_FIFO (the first that applies) or
   OUT_OF_MEMORY. Close the controller with nic_free. nic_open, below, does the same with a struct. */
uint8_t nic_new(uint8_t vfs, uint16_t fifo, uint32_t blocks, void **device);

/* Closes a controller and frees its memory and its frames. The controller must come from nic_new and still be open. A
   null `device` is a no-op. */
void nic_free(nic n);

/* --- snapshots --- */

/* Saves the controller's whole state: registers, lent blocks with their bytes, frames waiting to be received, bytes
   staged for sending, sent frames not yet collected, the link, the EEPROM image, and which blocks aren't lent. A
   restored controller answers every call as this controller would have answered it after the snapshot. The controller
   itself doesn't change. Returns DONE and stores the snapshot in *kept, or OUT_OF_MEMORY, which leaves *kept unchanged.
   Free the snapshot with nic_drop_snapshot. A snapshot takes 2,048 bytes for each lent block, and none for other
   blocks. */
uint8_t nic_snapshot(nic *n, nic_kept *kept);

/* Restores a snapshot into the controller that it was taken from or into any other. The controller then has the
   snapshot's number of blocks and virtual functions. Returns DONE if the snapshot replaced the controller's previous
   state, or OUT_OF_MEMORY if the controller is unchanged. Either way the snapshot stays and can be restored again. The
   snapshot's state is copied before the previous state is freed. The controller keeps its packet memory if it has as
   many blocks as the snapshot and all blocks lent in the snapshot are lent now. Otherwise it gets new packet memory.
   Don't rely on which of the two happens, or on how much memory the call takes: no contract specifies it. Like a
   handle, a snapshot isn't thread-safe. */
uint8_t nic_restore(nic *n, const nic_kept *kept);

/* Frees a snapshot that was made by nic_snapshot and isn't freed yet. A null `kept` is a no-op. No controller is
   affected. nic_drop_snapshot, below, does the same with a pointer to the struct, and may be called again. */
void nic_free_snapshot(nic_kept kept);

/* --- registers --- */

/* Reads and writes a register of the physical function by its address, with all side effects of the access. Returns
   DONE with the word, or STRAY if there is no register at the address (or if it isn't a multiple of 4). For STRAY, the
   word is the value that a driver would see, and nothing changes. */
uint8_t nic_read32(nic *n, uint32_t address, uint32_t *word);
uint8_t nic_write32(nic *n, uint32_t address, uint32_t word);

/* Reads and writes a register of virtual function `vf` in the same way, by its offset in the virtual function's
   registers. Also returns STRAY if the device doesn't have this function or the mode (GCR_EXT) has no pool for it;
   the register then reads as 0xFFFFFFFF. */
uint8_t nic_vf_read32(nic *n, uint8_t vf, uint32_t offset, uint32_t *word);
uint8_t nic_vf_write32(nic *n, uint8_t vf, uint32_t offset, uint32_t word);

/* Returns what a read would return, but without the read's side effects: no counter and no cause is cleared. STRAY
   leaves *word unchanged. */
uint8_t nic_peek32(nic *n, uint32_t address, uint32_t *word);
uint8_t nic_vf_peek32(nic *n, uint8_t vf, uint32_t offset, uint32_t *word);

/* Looks up the physical function's address of the register that virtual function `vf` has at an offset, in the mode
   selected by bits 1:0 of a GCR_EXT value. For example, in mode 3, with 64 pools, VFRDT(1) of function 3 is RDT[7], at
   0x011D8. Returns DONE; STRAY if the function has no register at the offset (or if it isn't a multiple of 4); NO_GROUP
   if the mode has no pool for the function, or its number is above 62. Only DONE changes *address. The call doesn't
   involve a controller, so it doesn't matter whether yours has the function. */
uint8_t nic_vf_address(uint32_t gcr_ext, uint8_t vf, uint32_t offset, uint32_t *address);

/* --- packet memory --- */

/* Packet memory is what the device reads and writes by bus address. Bus address a is byte a % 2048 of block a / 2048,
   so b blocks have the addresses below 2048 * b. The device accesses only lent blocks; if it needs any other block, it
   reports a fault. */
#define NIC_BLOCK_BYTES 2048u

/* Lends a block, filled with zeros. Returns DONE, NO_BLOCK (it is already lent or doesn't exist) or OUT_OF_MEMORY. */
uint8_t nic_lend(nic *n, uint32_t block);
/* Takes a block back. Its bytes are gone, unless the memory is the caller's own. Returns DONE or NOT_LENT. */
uint8_t nic_take(nic *n, uint32_t block);
/* Lends all blocks that aren't lent. Returns DONE, or OUT_OF_MEMORY (then the blocks below the one that failed are
   lent). */
uint8_t nic_lend_all(nic *n);

/* Lends the caller's own memory, which the device then reads and writes in place: bus address bus + i is the byte at
   memory + i, for each i below `bytes`. `bus` and `bytes` are multiples of 2,048; `memory` may be any address. Returns
   DONE, without changing any byte. The other statuses change nothing: BAD_MEMORY (`bus` or `bytes` isn't a multiple of
   2,048, or one of these bytes is already lent to this controller), NO_BLOCK (a block is already lent or doesn't
   exist), OUT_OF_MEMORY. Between two calls you read and write the memory directly, as a driver does; to the device,
   your stores are like nic_dma_write. Don't store into the memory during a call, whether from another thread, a signal
   handler or another process. Don't lend the same memory through two mappings. Don't free it while it is lent: it is
   lent until nic_unlend_memory or nic_take takes it back, or nic_close closes the controller. These calls leave its
   bytes unchanged. nic_snapshot saves its bytes, and nic_restore writes the snapshot's bytes into it. If a block isn't
   lent in the snapshot, nic_restore takes its memory back. You may lend the same memory to two controllers if calls to
   the two never overlap. After fork, the memory is lent in the child as in the parent; if they share it, only one of
   them may continue to make calls. */
uint8_t nic_lend_memory(nic *n, uint64_t bus, void *memory, size_t bytes);
/* Takes back all or part of the memory lent by nic_lend_memory. Returns DONE; BAD_MEMORY if `bus` or `bytes` isn't a
   multiple of 2,048; NOT_LENT if any of these blocks isn't the caller's memory. Then no block is taken back. */
uint8_t nic_unlend_memory(nic *n, uint64_t bus, size_t bytes);

/* Reads and writes lent memory as the driver does: `length` bytes starting at any bus address, even across blocks.
   Returns DONE, or NOT_LENT if one of the bytes isn't lent: then nothing is read or written. */
uint8_t nic_dma_read(nic *n, uint64_t bus, uint8_t *bytes, size_t length);
uint8_t nic_dma_write(nic *n, uint64_t bus, const uint8_t *bytes, size_t length);

/* --- the link; frames have no frame check sequence --- */

/* Puts a frame on the link. Returns DONE if the frame is now waiting for receive steps, DROPPED (`why`) or
   OUT_OF_MEMORY. */
uint8_t nic_arrive(nic *n, const uint8_t *frame, size_t length, nic_outcome *outcome);
/* Returns the length of the oldest sent frame not yet collected; 0 if there is no such frame or the controller isn't
   open. */
size_t nic_next_out(nic *n);
/* Copies that frame into a buffer and removes it. Returns FRAME (`queue`, `len`), IDLE if there is no such frame, or
   NO_ROOM if the frame is longer than `length`; then it stays. */
uint8_t nic_collect(nic *n, uint8_t *room, size_t length, nic_outcome *outcome);
/* Sets the link up or down. Returns DONE, or IDLE if the link already is in that state. Initially it is up. */
uint8_t nic_link(nic *n, bool up);

/* --- the device's steps; a step returns IDLE if it has nothing to do, and while CTRL bit 2 is 1 --- */

/* Writes one buffer's worth of the oldest waiting frame to memory. Returns WROTE, DROPPED, FAULT or IDLE. */
uint8_t nic_rx_step(nic *n, nic_outcome *outcome);
/* Fetches one descriptor of a transmit queue. Returns ADVANCED, SENT, FAULT, IDLE, NO_QUEUE or OUT_OF_MEMORY. */
uint8_t nic_tx_step(nic *n, uint16_t queue, nic_outcome *outcome);
/* Enables or disables one side of a queue, as RXDCTL or TXDCTL bit 25 requests. Returns DONE, IDLE or NO_QUEUE. */
uint8_t nic_queue_step(nic *n, bool transmit, uint16_t queue, nic_outcome *outcome);
/* Completes the EEPROM read that EERD requests. Returns DONE or IDLE. */
uint8_t nic_eeprom_step(nic *n, nic_outcome *outcome);
/* Sends the next interrupt message of a group, 0 for the physical function, v + 1 for virtual function v. Returns
   MESSAGE, IDLE or NO_GROUP. */
uint8_t nic_int_step(nic *n, uint8_t group, nic_outcome *outcome);

/* Runs steps in rounds until none has anything to do. A round is: for each queue below `queues`, its receive enable,
   then its transmit enable; the EEPROM; one transmit step for each of these queues; one receive step; one message for
   each group. The first `*count` entries of `outcome` report what happened, each with its `status`, `step` and `of`.
   Returns DONE after a round in which no step did anything. MORE means that the array filled up before such a round
   (immediately if `length` is 0); another call begins a new round. OUT_OF_MEMORY means that a transmit step found no
   memory and didn't run; the steps before it are reported. NO_QUEUE means that `queues` is above 128. */
uint8_t nic_settle(nic *n, uint16_t queues, nic_outcome *outcome, size_t length, size_t *count);

/* The position of nic_next_step in its rounds. `nic_settling where = {4, 0};` begins a round for the queues below 4. */
typedef struct nic_settling {
    uint16_t queues;
    uint16_t at; /* position of the next step in the round; initially 0 */
} nic_settling;

/* Runs the next step of nic_settle that has something to do, so that the driver can act before the device continues:

       nic_settling where = {4, 0};
       while (nic_next_step(&n, &where, &event) == NIC_MORE)
           if (event.status == NIC_MESSAGE)
               handle(event.vector);

   MORE: a step ran, and `outcome` reports it with its `status`, `step` and `of`. DONE: no step in a whole round had
   anything to do; the next call begins a new round. OUT_OF_MEMORY: a transmit step found no memory; the next call tries
   the step again. NO_QUEUE: `queues` is above 128. If you make no other call in between, the steps and their order are
   the same as with nic_settle. */
uint8_t nic_next_step(nic *n, nic_settling *where, nic_outcome *outcome);

/* --- why nothing happens --- */

/* Explains why nothing happens, in lines of text that end with '\n'. There is a line for each waiting frame, each queue
   that isn't at rest, each cause without a message, and a pending EEPROM read. A line names registers and bits with
   their values, as tools/niclint --trace does: "rx 3: RDH[3] 0, RDT[3] 0: head and tail meet, so the device owns no
   slot until the driver advances the tail". No lines means that nothing is waiting and nothing was dropped. Sent frames
   don't count as waiting. Dropped frames are counted by the reason for the drop, since the controller was created or a
   snapshot was restored into it. A queue that a fault switched off keeps the fault's line as long as the faulty slot is
   still in the ring. A transmit ring at rest has a line if its last descriptor is a context descriptor with EOP, or if
   no descriptor has RS. If an address isn't lent, but is a pointer into memory that the caller has lent, the line names
   the bus address of that memory. Like snprintf, the call writes at most `size` bytes, including the terminating 0, and
   returns the length of all lines without it. It writes only whole lines, up to the first that doesn't fit. `size` may
   be 0. For a closed controller there are no lines. The call changes nothing. Registers don't show which frames are
   waiting, which enable requests of queues are pending, or which causes were reported. The call finds them out on a
   copy of the controller. Until the call returns, the copy takes as much memory as a snapshot and a restored
   controller: 4,096 bytes for each lent block. If there isn't enough memory, the last line says so, and the lines that
   need the copy are missing. */
size_t nic_why(nic *n, char *text, size_t size);

/* --- the EEPROM --- */

/* Installs an EEPROM image, from the image's bytes or from its textual description (docs/script.md, "An EEPROM image").
   Returns DONE, a NIC_IMAGE_.. or NIC_TEXT_.. status, or OUT_OF_MEMORY. *line is the line or index that a NIC_TEXT_..
   status reports, and 0 for DONE or CLOSED. Ignore it after OUT_OF_MEMORY. */
uint8_t nic_install_image(nic *n, const uint8_t *bytes, size_t length);
uint8_t nic_install_text(nic *n, const uint8_t *text, size_t length, uint64_t *line);

/* --- receive side scaling --- */

/* Computes the hash of an input of at most 36 bytes with a key. Returns DONE or NO_ROOM. */
uint8_t nic_hash(const uint8_t key[40], const uint8_t *input, size_t length, uint32_t *hash);

/* --- convenience functions --- */

/* Like nic_new and nic_free, but with a struct. A refused nic_open leaves a null device, for which nic_close is a
   no-op. */
static inline uint8_t nic_open(nic *n, uint8_t vfs, uint16_t fifo, uint32_t blocks)
{
    n->device = NULL;
    return nic_new(vfs, fifo, blocks, &n->device);
}

static inline void nic_close(nic *n)
{
    if (n->device)
        nic_free(*n);
    n->device = NULL;
}

/* Like nic_free_snapshot, but with a pointer to the struct; a no-op for a null snapshot. */
static inline void nic_drop_snapshot(nic_kept *kept)
{
    if (kept->kept)
        nic_free_snapshot(*kept);
    kept->kept = NULL;
}

/* Reads a register and returns the word that a driver sees, whatever the status. */
static inline uint32_t nic_get(nic *n, uint32_t address)
{
    uint32_t word = 0;
    (void)nic_read32(n, address, &word);
    return word;
}

/* Returns the number of queues in each pool in the mode that a GCR_EXT value selects: 8, 4 or 2; 0 without pools. This
   is also the number of virtual function 1's first queue. */
static inline uint32_t nic_pool_queues(uint32_t gcr_ext)
{
    uint32_t first = NIC_RDBAL(0);
    (void)nic_vf_address(gcr_ext, 1, NIC_VFRDBAL(0), &first);
    return (first - NIC_RDBAL(0)) / (NIC_RDBAL(1) - NIC_RDBAL(0));
}

/* Reads and writes 64-bit numbers in lent memory, low byte first, as the device stores them. */
static inline uint8_t nic_put64(nic *n, uint64_t bus, uint64_t value)
{
    uint8_t bytes[8];
    for (int k = 0; k < 8; k++)
        bytes[k] = (uint8_t)(value >> 8 * k);
    return nic_dma_write(n, bus, bytes, 8);
}

static inline uint8_t nic_get64(nic *n, uint64_t bus, uint64_t *value)
{
    uint8_t bytes[8] = {0};
    uint8_t status = nic_dma_read(n, bus, bytes, 8);
    *value = 0;
    for (int k = 0; k < 8; k++)
        *value |= (uint64_t)bytes[k] << 8 * k;
    return status;
}

/* Reads and writes a slot's descriptor in a ring that begins at a bus address; nic82599_desc.h packs and unpacks it.
   Returns DONE or NOT_LENT. */
static inline uint8_t nic_put_desc(nic *n, uint64_t ring, uint32_t slot, nic_desc d)
{
    uint8_t bytes[NIC_DESC_BYTES];
    nic_desc_to_bytes(d, bytes);
    return nic_dma_write(n, ring + (uint64_t)NIC_DESC_BYTES * slot, bytes, sizeof bytes);
}

static inline uint8_t nic_get_desc(nic *n, uint64_t ring, uint32_t slot, nic_desc *d)
{
    uint8_t bytes[NIC_DESC_BYTES] = {0};
    uint8_t status = nic_dma_read(n, ring + (uint64_t)NIC_DESC_BYTES * slot, bytes, sizeof bytes);
    *d = nic_desc_of_bytes(bytes);
    return status;
}

/* Returns a field's value in a word: nic_field(word, NIC_SRRCTL_DESCTYPE). */
static inline uint32_t nic_field(uint32_t word, uint32_t field)
{
    return field ? (word & field) / (field & ~(field - 1u)) : 0;
}

/* Returns the name of a status, as `nicbench run` prints it. */
static inline const char *nic_status_name(uint8_t status)
{
    switch (status) {
    case NIC_DONE: return "done";
    case NIC_STRAY: return "stray";
    case NIC_IDLE: return "idle";
    case NIC_DROPPED: return "dropped";
    case NIC_WROTE: return "wrote";
    case NIC_ADVANCED: return "advanced";
    case NIC_SENT: return "sent";
    case NIC_FAULT: return "fault";
    case NIC_MESSAGE: return "message";
    case NIC_FRAME: return "frame";
    case NIC_NOT_LENT: return "not lent";
    case NIC_NO_QUEUE: return "no queue";
    case NIC_NO_GROUP: return "no group";
    case NIC_OUT_OF_MEMORY: return "out of memory";
    case NIC_NO_ROOM: return "no room";
    case NIC_TOO_MANY_VFS: return "too many virtual functions";
    case NIC_BAD_FIFO: return "bad fifo";
    case NIC_BAD_BLOCKS: return "bad number of blocks";
    case NIC_NO_BLOCK: return "no block";
    case NIC_MORE: return "more";
    case NIC_BAD_MEMORY: return "bad memory";
    case NIC_CLOSED: return "closed";
    case NIC_BROKEN: return "broken";
    case NIC_IMAGE_ODD_LENGTH: return "image: odd length";
    case NIC_IMAGE_BAD_SIZE: return "image: bad size";
    case NIC_IMAGE_SECTION_OUTSIDE: return "image: section outside";
    case NIC_IMAGE_BAD_CHECKSUM: return "image: bad checksum";
    case NIC_IMAGE_NOT_TRIPLES: return "image: not triples";
    case NIC_TEXT_SYNTAX: return "text: syntax";
    case NIC_TEXT_TWO_VALUES: return "text: two values";
    case NIC_TEXT_RESERVED: return "text: reserved";
    case NIC_TEXT_DOES_NOT_FIT: return "text: does not fit";
    case NIC_TEXT_POINTER_OUTSIDE: return "text: pointer outside";
    case NIC_TEXT_NOT_UTF8: return "text: not UTF-8";
    default: return "unknown";
    }
}

/* Return the name of a reason for a drop or of a fault, as `nicbench run` prints it. */
static inline const char *nic_why_name(uint8_t why)
{
    static const char *const names[] = {"",        "link down", "off",  "short",     "long",   "filter",
                                        "no pool", "pool off",  "full", "queue off", "no slot"};
    return why < sizeof names / sizeof *names ? names[why] : "unknown";
}

static inline const char *nic_fault_name(uint8_t fault)
{
    static const char *const names[] = {"",        "outside", "not lent", "type",        "no buffer size",
                                        "offload", "legacy",  "too long", "unknown type"};
    return fault < sizeof names / sizeof *names ? names[fault] : "unknown";
}

/* Returns the name of a step, as in a script. */
static inline const char *nic_step_name(uint8_t step)
{
    static const char *const names[] = {"qstep rx", "qstep tx", "eestep", "tx", "rx", "int"};
    return step < sizeof names / sizeof *names ? names[step] : "unknown";
}

#ifdef __cplusplus
}
#endif

#endif
