/* A report card for a driver. You name your driver's functions in a struct, and the card runs them in its own
   scenarios. It runs each scenario under many orders of steps (nic82599_explore.h), and judges the driver by what the
   device did. docs/report-card.md begins with an example.

       static const nicd_driver driver = {.name = "mine", .open = my_open, .close = my_close, ..};

       int main(int argc, char **argv)
       {
           return nicd_main(argc, argv, &driver);
       }

       c/drive/nicdrive my_driver.c

   Your driver accesses its controller through the nic82599_explore.h calls for tasks: nicx_read32 and nicx_write32 (for
   a virtual function nicx_vf_read32 and nicx_vf_write32), nicx_dma_read and similar calls, nicx_lock, nicx_wait,
   nicx_pause, nicx_point. Each of them is a point at which other actors may run. DMA memory comes from nicd_dma_alloc,
   below. Your driver declares no tasks, handlers or frames: the card does.

   Each schedule begins with `open`, on a controller in its power-up state. Reset your driver's state there, or in
   `begin`. A schedule can end without `close`, so allocate memory with nicd_alloc, which the card reclaims, or make it
   static.

   This part is tested, not proved. */
#ifndef NIC82599_DRIVE_H
#define NIC82599_DRIVE_H

#ifdef _WIN32
#error "the report card isn't available on Windows, because it is built on the explorer"
#endif

#include "nic82599_explore.h"

#ifdef __cplusplus
extern "C" {
#endif

enum {
    NICD_FRAME_MOST = 9724, /* bytes of the longest frame, without its check sequence (9,728 with it) */
    NICD_QUEUES = 4,        /* the largest number of queues that the card opens */
    NICD_WORDS = 16         /* words in a mailbox */
};

/* What the card requests from `open`. */
typedef struct nicd_setup {
    uint8_t port;       /* 0: the physical function; v + 1: virtual function v, with 64 pools */
    uint16_t queues;    /* the driver uses receive and transmit queues 0 .. queues - 1 of that port; 1 to NICD_QUEUES */
    uint16_t slots;     /* descriptors per ring: 8, 16, .. 64 */
    uint32_t frame;     /* bytes of the longest frame: 1,514 to NICD_FRAME_MOST */
    bool interrupts;    /* whether `interrupt` will be called; if not, the driver leaves all causes masked */
    uint8_t address[6]; /* the port's address, as provided by the EEPROM or by the PF's driver */
    /* for port 0: the number of virtual functions that the driver serves, 0 or 2. If there are any, it configures 64
       pools of queues (GCR_EXT.VT_MODE 3) and reports to the virtual functions that the device is ready
       (CTRL_EXT.PFRSTD) */
    uint8_t functions;
} nicd_setup;

/* A received frame. */
typedef struct nicd_frame {
    uint32_t length; /* 1 to NICD_FRAME_MOST */
    uint32_t hash;   /* the RSS hash; 0 if the driver doesn't provide it */
    uint8_t bytes[NICD_FRAME_MOST];
} nicd_frame;

/* Which frames to accept, in addition to frames to the port's own address. */
typedef struct nicd_filter {
    bool all_unicast, all_multicast, broadcast;
    uint32_t count;        /* 0 to 4 */
    uint8_t address[4][6]; /* unicast or multicast addresses, in addition to the port's own */
} nicd_filter;

/* The driver's counts since `open`. */
typedef struct nicd_stats {
    uint64_t rx_frames, rx_bytes; /* frames and bytes delivered to the driver's caller */
    uint64_t tx_frames, tx_bytes; /* frames and bytes that `send` accepted */
} nicd_stats;

/* Receive side scaling. `types` is a mask of 1 << enum nic_rss_type (nic82599_desc.h). */
typedef struct nicd_rss {
    uint8_t key[40];
    uint8_t table[128]; /* queue numbers */
    uint32_t types;
} nicd_rss;

enum nicd_can {
    NICD_SHARED_SEND = 1, /* several threads may call `send` for one queue concurrently */
    NICD_FUNCTIONS = 2,   /* `open` supports the port of a virtual function */
    NICD_HOST = 8,        /* the driver can serve virtual functions: `open` supports `functions` above 0 */
    /* `open` and `close` don't change what the setup doesn't use, and don't reset the device. No call changes the
       causes or masks of other vectors */
    NICD_SHARED_DEVICE = 4,

    /* What the driver never does, by design. If an action's bit is set, the rows that require the action aren't
       applicable. Otherwise they are reported as not reached. */
    NICD_NO_MODERATION = 16, /* it writes no interval to EITR */
    NICD_NO_HEADS = 32,      /* it writes neither RDH nor TDH */
    NICD_ONE_VECTOR = 64,    /* all queues share one vector */
    NICD_ONE_BUFFER = 128,   /* each frame has one descriptor, however long it is */
    NICD_NO_ADDRESS = 256,   /* it writes no receive address: it accepts all frames, or the PF's driver sets it */
    NICD_NO_MSIX = 512,      /* it uses INTx or a single MSI message, so GPIE.MULTIPLE_MSIX stays 0 */

    NICD_CAN = 1023 /* all of these bits */
};

/* A driver's functions. A function that the driver lacks is null. Rows that need a missing function are reported as not
   applicable. `open` and `close` are required, and so is `send` or `receive` (or threads that call nicd_deliver).

   For each queue the card calls `receive` in one thread at a time. The same holds for `send` and `reclaim` (but see
   NICD_SHARED_SEND). Calls for different queues may overlap. `interrupt` may run at any time between open and close, on
   top of any thread or concurrently with all of them, but never concurrently with itself for one vector. One thread
   makes the other calls (close, reset, filter, rss, mtu, resize, suspend, resume), and no receive, send or reclaim runs
   during them. mailbox_send and mailbox_receive are called by one thread at a time, and mailbox_ready may run
   concurrently with them. Your driver synchronizes its own threads. */
typedef struct nicd_driver {
    const char *name; /* 1 to 40 letters, digits, '-' and '_' */
    uint32_t can;     /* bits of enum nicd_can */
    uint16_t queues;  /* the largest number of queues that `open` supports, 1 to NICD_QUEUES; 0 means 1 */
    uint16_t slots;   /* the smallest ring that `open` supports, 8, 16, .. 64; 0 means 8 */
    uint32_t frame;   /* the longest frame that it supports; 0 means 1,514 */

    /* Resets the driver's state when a schedule begins. It must not access the device. May be null. */
    void (*begin)(void);
    /* Sets up the controller, from power-up or from the state that `close` left, and returns true when frames can be
       received and sent. Returns false if it fails, for example because an allocation failed. In that case it has freed
       everything that it allocated, and may be called again. */
    bool (*open)(const nicd_setup *setup);
    /* Shuts down. On return the device accesses none of the driver's memory and sends no message, and the driver has
       freed its memory. */
    void (*close)(void);

    /* Stores the next frame of a queue, complete, and returns true. Returns false immediately if there is none. If your
       driver delivers frames from its own threads, call nicd_deliver in them and leave `receive` null. Then the card
       always opens the driver with interrupts, if it has `interrupt`. */
    bool (*receive)(uint16_t queue, nicd_frame *frame);
    /* Sends a frame that is 60 bytes to the setup's `frame` bytes long. Returns true if the frame is accepted: the
       caller may then reuse `bytes`. Returns false if the ring has no room now, or the frame is longer than the setup
       allows. */
    bool (*send)(uint16_t queue, const uint8_t *bytes, uint32_t length);
    /* Reclaims sent frames. Returns how many frames of the queue are still unsent, as far as the driver knows. */
    uint32_t (*reclaim)(uint16_t queue);

    /* Handles a vector's message. Returns the queues to poll, as bit q for queue q. For each of these queues the card
       calls `receive` until it returns false, then `reclaim`, then `rearm`, which enables the queue's interrupts
       again. */
    uint32_t (*interrupt)(uint8_t vector);
    void (*rearm)(uint16_t queue);

    /* The driver's own threads, 0 .. threads - 1 (at most 4). They start after `open` has returned true, and may wait
       forever. */
    uint32_t threads;
    void (*thread)(uint32_t number);

    /* Further functions. Each returns whether it succeeded; if it returns false, nothing has changed. */
    bool (*filter)(const nicd_filter *filter);
    bool (*rss)(const nicd_rss *rss);
    bool (*mtu)(uint32_t frame);    /* changes the longest frame; frames in flight may be lost */
    bool (*resize)(uint16_t slots); /* changes the rings' length; frames in flight may be lost */
    /* sets everything up again after a fault, with the same setup; frames in flight may be lost */
    bool (*reset)(void);
    /* quiesces the device: until `resume` no frame is written or sent, no message is sent, and only a handler that is
       still running accesses the device */
    bool (*suspend)(void);
    bool (*resume)(void);
    /* returns whether the link is up, as far as the driver knows. It must not access the device, and any thread may
       call it concurrently with all other calls */
    bool (*link)(void);

    /* The mailbox: for port 0, the mailbox of virtual function vf; for a virtual function, its own mailbox (vf is then
       0). mailbox_send writes 1 to NICD_WORDS words for the other side; it returns false if the mailbox isn't free now.
       mailbox_receive reads and acknowledges a message from the other side; it returns false if there is none. */
    bool (*mailbox_send)(uint8_t vf, const uint32_t *words, uint32_t count);
    bool (*mailbox_receive)(uint8_t vf, uint32_t words[NICD_WORDS]);
    /* For a virtual function: returns whether the device is ready, because the PF's driver has set it up (RSTD is set,
       or the PF's driver was already up). */
    bool (*mailbox_ready)(void);

    /* Stores the counts since `open`. Any thread may call it concurrently with all other calls. The frames and bytes of
       a direction must match, no count may decrease, and no frame may go uncounted. Count a frame before `receive` or
       `send` returns. */
    void (*stats)(nicd_stats *stats);
} nicd_driver;

/* --- calls that your driver can make --- */

/* Allocates DMA memory of 1 to 524,288 zeroed bytes. Returns the bus address of its first byte, a multiple of 128. The
   memory after it isn't lent, so any access there by the driver or the device is reported. Returns 0 if memory has run
   out, or if the scenario makes the allocation fail. There is room for 123 allocations of 2 KB, or for a single one of
   503,808 bytes. The card opens at most two queues of 16 slots, four of 8, or two of the fewest slots that the driver
   supports. Two queues of 64 slots, with 2 KB for each slot in both directions, don't fit. */
uint64_t nicd_dma_alloc(size_t bytes);
/* Frees the DMA memory that begins at this address. The device must no longer use it. */
void nicd_dma_free(uint64_t bus);

/* Returns a pointer to the byte at bus address `bus` in memory from nicd_dma_alloc, for a driver that accesses its
   memory through pointers. Memory of one nicd_dma_alloc is contiguous, and pointers are valid until nicd_dma_free. What
   the device writes is visible immediately. What the driver stores reaches the device before the driver's next
   nic82599_explore.h call, barriers included: each run of changed bytes is written at a point, as nicx_dma_write does.
   Loads aren't points, so a loop that only waits for a value in memory must call nicx_pause. A store past the end of an
   allocation, or into freed memory, fails the schedule at that call; with -fsanitize=address it is reported at the
   store. If nicd_dma_alloc didn't allocate the byte, the schedule fails and the result is null. This call isn't a
   point. */
void *nicd_dma_pointer(uint64_t bus);

/* Allocates memory for the driver itself, zeroed as by calloc. Returns null if the allocation fails. */
void *nicd_alloc(size_t bytes);
void nicd_free(void *memory);

/* Delivers a queue's frame to the card from one of the driver's own threads, if `receive` is null. */
void nicd_deliver(uint16_t queue, const uint8_t *bytes, uint32_t length);

/* --- the program --- */

/* PROGRAM --list prints the scenarios. PROGRAM --row NAME runs one, and accepts the options of nicx_main after the
   name. Returns nicx_main's status, or 4 if the scenario isn't applicable. c/drive/nicdrive runs all scenarios and
   prints the card. */
int nicd_main(int argc, char **argv, const nicd_driver *driver);

#ifdef __cplusplus
}
#endif

#endif
