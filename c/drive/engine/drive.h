/* Shared by the files of the report card: the process's scenario, its driver, and the state of the current schedule. */
#ifndef NICD_DRIVE_H
#define NICD_DRIVE_H

#include <stdio.h>

#include "../../explore/observer.h"
#include "../../library/look.h"
#include "nic82599_drive.h"

enum {
    BLOCKS = 256, /* blocks of packet memory; a failure's script declares the same number */
    OTHERS = 248, /* first of the blocks that belong to other drivers, which the card plays */
    FIFO = 256,   /* capacity of the device's receive list, in frames */
    MOST_PIECES = 128,
    MOST_OUT = 160,   /* maximum number of frames sent through a queue in one schedule */
    MOST_REACHES = 8, /* requirements per row */
    MOST_THREAD = 4,
    DEVICE_QUEUES = 128,
    WORDS = 240
};

/* --- a scenario --- */

/* Functions that a scenario needs from a driver, besides `open` and `close`. */
enum needs {
    RECEIVES = 1 << 0, /* `receive`, or threads that deliver */
    PULLS = 1 << 1,    /* `receive` */
    SENDS = 1 << 2,
    RECLAIMS = 1 << 3,
    INTERRUPTS = 1 << 4,
    FILTER = 1 << 5,
    RSS = 1 << 6,
    MTU = 1 << 7,
    RESIZE = 1 << 8,
    RESET = 1 << 9,
    SUSPEND = 1 << 10,
    LINK = 1 << 11,
    MAILBOX = 1 << 12,
    FUNCTIONS = 1 << 13,
    SHARED_SEND = 1 << 14,
    SHARED_DEVICE = 1 << 15,
    READY_BIT = 1 << 16,
    PHYSICAL = 1 << 17, /* registers that only the physical function can access */
    HOST = 1 << 18,
    STATS = 1 << 19,
    MSIX = 1 << 20
};

enum ways {
    /* the scenario calls `open` itself, in a task; otherwise the driver is open when the schedule begins */
    OPENS = 1,
    LOSSY = 2,      /* frames received or sent before the last interruption may be lost */
    DROPS = 4,      /* the device may drop frames; the scenario judges which */
    FAULTY = 8,     /* the scenario causes queue faults and accesses to memory that isn't lent */
    NEIGHBOUR = 16, /* another driver owns a queue, and any access of the tested driver to it fails the schedule */
    UNPOLLED = 32,  /* the scenario itself calls `receive` */
    LATE = 64,      /* handlers run only when no other actor can */
    OFTEN = 128     /* handlers run a second time for each message, at one of the next points */
};

/* What a row must reach in at least one of its schedules, as observed at the device and in the card. A row that doesn't
   reach it shows nothing and doesn't pass. reach.c has the message for each. */
enum reach {
    NO_REACH,
    WAS_OPENED,
    WAS_REOPENED,
    WAS_CLOSED,
    CALLED,   /* the row's call returned */
    ACCESSED, /* the driver accessed a register */
    WRITES_TXDCTL,
    WRITES_RDT,
    WRITES_HEAD,
    WRITES_RXEN,
    WRITES_RESET,
    WRITES_RING,
    WRITES_SRRCTL,
    WRITES_ADDRESS,
    WRITES_EITR,
    WRITES_EIMS,
    HASHES,   /* the driver selected RSS in MRQC, in a row that spreads flows over its queues */
    LOOKED,   /* `receive` found no frame */
    TAKEN,    /* for each queue: a frame arrived and was delivered */
    TAKEN_0,  /* like TAKEN, but only for queue 0 */
    SENT,     /* for each queue: a frame was sent, if the driver has `send` */
    MESSAGES, /* for each queue: its vector sent a message, if the driver has `interrupt` */
    FULL,     /* the device had no free slot left in receive queue 0 */
    WRAPS,    /* the device wrote slot 0 of receive queue 0 a second time */
    SENT_WRAPS,
    LONG, /* the row's longest frame was delivered */
    SENT_LONG,
    CHAIN, /* a received frame took several slots */
    SENT_CHAIN,
    SEND_REFUSED, /* `send` returned false because the ring was full */
    OVERLAPS,     /* two `send` calls ran concurrently for one queue */
    DESCRIPTOR,
    WRITTEN_BACK,
    POLLED, /* a frame arrived while its queue was being polled */
    SPURIOUS,
    LATE_CALL,  /* a handler was called while the ring was full */
    AGAIN_CALL, /* a handler was called while its queue was being polled */
    OWN_VECTORS,
    KEPT_OUT,    /* the filter dropped a frame */
    TOO_LONG,    /* a frame was dropped because of its length */
    DURING_IN,   /* an incoming frame was in flight during the row's call */
    DURING_OUT,  /* an outgoing frame was in flight during the row's call, if the driver has `send` */
    DURING_LINK, /* the link changed during the row's call */
    ASLEEP_FRAME,
    ASLEEP_LINK,
    LINK_DOWN,
    LINK_UP,
    CAME_AFTER, /* a frame arrived after what the row tries, and was judged */
    MET_FAULT,
    NO_MEMORY,
    MAIL_GIVEN, /* the driver's peer in the mailbox received a message from it */
    MAIL_TAKEN, /* the driver received a message through the mailbox; for the PF's driver, from function 0 */
    MAIL_TAKEN_1,
    IS_READY,
    COUNTED, /* a thread of the row saw `stats` increase */
    REACHES
};

/* The driver's calls during which frames or link changes may be under way. */
enum call {
    NO_CALL,
    CALL_OPEN,
    CALL_CLOSE,
    CALL_RESET,
    CALL_RESIZE,
    CALL_MTU,
    CALL_SUSPEND,
    CALL_RESUME,
    CALL_FILTER,
    CALL_RSS,
    CALLS
};

struct reached {
    const char *row;
    uint8_t reaches[MOST_REACHES]; /* enum reach; NO_REACH ends the list */
    uint8_t call;                  /* enum call: the row's call, which DURING_IN, DURING_OUT and DURING_LINK refer to */
};

struct scenario {
    const char *name;
    const char *title;  /* what the row tries, in a few words */
    const char *rule;   /* the rule that it checks, as a sentence */
    const char *source; /* origin of the rule: a section of the datasheet, or a rule of the adapter */
    uint32_t needs, ways;
    nicd_setup setup; /* 0 in queues, slots or frame means 1, 8 or 1,514 */
    uint32_t points;
    /* What a schedule declares besides the card's own handlers, in the order of declaration. A `sends` or `comes`
       other than 0 counts frames in addition to the frames that fill `rings` rings. The `late` frames arrive only after
       the flow resumes. */
    void (*control)(void); /* body of a thread that calls the driver, or null */
    void (*opened)(void);  /* what `control` reads after the driver opens, or null */
    void (*begin)(void);   /* declares more threads and frames, or null */
    bool takes;            /* whether threads receive frames */
    int8_t rings, sends, comes, late;
    uint8_t links;                                        /* number of link changes; the first takes the link down */
    uint16_t length;                                      /* length of each frame; 60 if 0 */
    uint8_t type;                                         /* enum nic_rss_type of the flows that arrive */
    const char *(*end)(void);                             /* a further check when the schedule ends, or null */
    void (*see)(const nicxo_step *step, bool is_drivers); /* called for each step, or null */
    const struct reached *reached;                        /* requirements of a row that isn't in nicd_reaches */
};

/* An entry in a family's table. Further fields of the scenario follow by name. */
#define ROW(row, what, words, section, need, ...)                                                                      \
    {                                                                                                                  \
        .name = row, .title = what, .rule = words, .source = section, .needs = need, __VA_ARGS__                       \
    }

/* A table ends with a scenario that has no name; the list of families ends with one that has no rows. */
struct family {
    const char *name;
    const struct scenario *rows;
};

extern const struct family nicd_families[];

/* What each row must reach (scenarios/reaches.c). The table ends with an entry that has no row. */
extern const struct reached nicd_reaches[];

/* --- frames that arrive --- */

enum to { TO_OWN, TO_OTHER, TO_BROADCAST, TO_MULTICAST, TO_SECOND };

struct come {
    uint8_t to;
    uint8_t type; /* enum nic_rss_type of the frame's flow */
    uint16_t flow;
    uint32_t length;
};

enum frame_state { ON_ITS_WAY, WAITS, IS_WRITTEN, IS_DELIVERED, IS_DROPPED, IS_LOST };

/* When a frame arrived or was written, relative to the row's call, which a scenario task makes. */
enum era { BEFORE, DURING, AFTER };

enum lost { BY_A_FAULT, BY_A_QUEUE, BY_A_RESET };

struct frame_now {
    uint8_t state;
    uint8_t why;   /* why it was dropped; for a lost frame, enum lost */
    uint8_t queue; /* the device queue that it was written to */
    uint16_t slot; /* slot of its last part */
    uint32_t life; /* value of nicd.life when it arrived */
    uint8_t era, written_era;
};

/* --- the state of the schedule --- */

struct piece {
    uint64_t bus;
    uint32_t first, blocks; /* 0 blocks: not allocated */
    uint32_t bytes;
    char by[24];      /* the call or thread that allocated it */
    bool is_in_place; /* whether the driver has a pointer to it */
};

struct poller {
    uint16_t queue;
    bool scheduled, busy;
    nicx_mutex lock;
};

struct sent {
    uint16_t number;
    uint32_t length, life;
};

/* A transmitted frame. Each queue's frames are stored in the order in which they were sent. */
struct went {
    uint16_t slot; /* slot of its last descriptor */
    bool back;     /* whether the device wrote back its descriptor or the head */
};

struct drive {
    const nicd_driver *driver;
    const struct scenario *scenario;
    nicd_setup setup;              /* the setup passed to `open` */
    uint16_t base;                 /* the device queue that is the port's queue 0 */
    bool is_open;                  /* from open's return to close's return */
    bool is_running;               /* whether frames may be received and sent */
    bool is_ended;                 /* `close` has returned, and `open` hasn't been called since */
    bool was_ended;                /* close has returned at least once */
    bool is_asleep;                /* from suspend's return to resume's call */
    uint8_t doing;                 /* enum call: the call that `doer` is in */
    unsigned doer;                 /* a thread's number, or NICXO_NO_THREAD */
    uint8_t era;                   /* enum era, relative to the row's call */
    uint32_t links;                /* link changes so far */
    uint32_t life;                 /* interruptions so far: open, close, nicd_hold, nicd_go_on */
    uint32_t events;               /* device steps and other events after which a failed call may succeed */
    uint32_t calls;                /* send and reclaim calls in progress */
    uint32_t sending[NICD_QUEUES]; /* send calls in progress, by queue */
    uint32_t too_long;             /* length of the frame that send must refuse; 0: there is none */
    uint32_t cards;                /* bit k: task k belongs to the card, not to the driver */
    bool by_card;                  /* outside tasks: whether the card is acting */
    const struct reached *reached; /* what the row must reach */
    const char *fault;
    char words[WORDS];

    struct piece pieces[MOST_PIECES];
    const struct piece *newest;
    uint32_t taken, own_taken;    /* allocated pieces: DMA memory, nicd_alloc */
    uint32_t allocations, refuse; /* allocations so far; number of the one that is to fail, counted from 1 */
    uint32_t beyond;              /* memory in place is below this block; 0 if there is none */
    bool holds_back;              /* transmit write-backs aren't visible to the driver yet */
    size_t own_used;

    struct come coming[NICX_FRAMES];
    struct frame_now frames[NICX_FRAMES];
    uint16_t count, late; /* the last `late` frames arrive only after the flow resumes */
    uint16_t waiting[NICX_FRAMES];
    uint16_t oldest, let_in;
    int partial; /* the device queue with a partly written frame, or -1 */
    uint16_t written[NICD_QUEUES][NICX_FRAMES];
    uint16_t written_count[NICD_QUEUES], next[NICD_QUEUES]; /* index in `written` of the next frame to be delivered */
    uint32_t delivered;

    struct sent sent[NICD_QUEUES][MOST_OUT];
    uint32_t accepted[NICD_QUEUES], went[NICD_QUEUES];         /* accepted by send; sent by the device */
    uint32_t accepted_now[NICD_QUEUES], went_now[NICD_QUEUES]; /* the same counts since the last interruption */
    struct went out_slots[NICD_QUEUES][MOST_OUT];
    /* whether `send` returned false; whether a task waits until all frames are sent */
    bool is_refused[NICD_QUEUES], is_awaited[NICD_QUEUES];
    uint32_t out[NICD_QUEUES]; /* unsent frames: reclaim's last result plus frames accepted since */
    uint32_t numbers;

    struct poller pollers[NICD_QUEUES];
    int timers[16]; /* timers of the vectors, in a scenario of late or repeated messages */
    struct {
        nicd_frame frame;
        uint8_t beyond[64]; /* memory past `frame`, which the driver must not write */
    } room[NICD_QUEUES];
};

extern struct drive nicd;

/* Fails the schedule with this message: immediately in a task, otherwise at the next step. */
void nicd_failed(const char *form, ...);
/* Records a reason to fail, which takes effect at the next check. It always returns to its caller. */
void nicd_note(const char *form, ...);

/* Counts a requirement that the schedule reached. The second form is for a queue or a virtual function. */
void nicd_reach(enum reach reach);
void nicd_reach_of(enum reach reach, unsigned number);
/* Returns the name of a call. */
const char *nicd_call_name(enum call call);

/* --- which calls the adapter's contract keeps from overlapping --- */

/* Called around each driver call. A queue's calls (receive, reclaim, send, rearm) come after `open` and after calls
   that hold the flow. Calls that hold the flow come after queues' calls. Calls for the mailbox never overlap, and calls
   for one vector never do. */
enum contract { OF_QUEUE, OF_CONTROL, OF_MAILBOX, BESIDE_ALL };
void nicd_calls(enum contract contract);
void nicd_called(enum contract contract);
void nicd_contract_begin(void);
/* Calls a vector's handler, which never overlaps with itself, and schedules the queues that it returns for polling. */
void nicd_interrupt(uint8_t vector);
/* Begins a poll that a handler scheduled. */
void nicd_begin_poll(unsigned queue);

/* --- parts --- */

void nicd_memory_begin(void);
/* Returns null, or a message about memory that the driver hasn't freed. */
const char *nicd_memory_left(void);
/* The number of allocated pieces of both kinds, and the DMA memory allocated last. */
uint32_t nicd_memory_taken(void);
const struct piece *nicd_memory_newest(void);
/* Describes an address that isn't lent, relative to the driver's pieces. */
const char *nicd_memory_near(uint64_t bus);
/* Whether a bus address is in a piece of the driver's memory. */
bool nicd_memory_has(uint64_t bus);

/* Memory in place (in_place.c): called when a schedule begins, when a piece is freed, and after each step. */
void nicd_in_place_begin(void);
void nicd_in_place_end(const struct piece *piece);
void nicd_in_place_see(const nicxo_step *step);
/* Whether the driver has a pointer to this byte. The second call makes the device's writes to these bytes visible to
   the driver. */
bool nicd_in_place_has(uint64_t bus);
void nicd_in_place_copy(uint64_t bus, uint64_t bytes);
/* Writes the driver's stores through pointers to the device's memory, each run of bytes at its own point. */
void nicd_publish(void);

void nicd_watch_begin(void);
void nicd_watch(const nicxo_step *step);
/* Returns the row's entry: what it must reach. */
const struct reached *nicd_reached(const struct scenario *it);
/* Whether an entry requires this. */
bool nicd_must_reach(const struct reached *entry, enum reach reach);
void nicd_reach_begin(void);
bool nicd_reach_open(void);
/* Called for each step, and when a driver call begins. */
void nicd_reach_step(const nicxo_step *step, bool is_drivers);
void nicd_reach_call(void);
void nicd_reach_delivered(uint16_t queue, uint16_t number);
void nicd_reach_write(FILE *file);
/* Prints what a row must reach. */
void nicd_reach_tell(const struct scenario *it);

/* Allocates the coverage of all searches of the process, and writes it to a file. */
bool nicd_coverage_open(void);
bool nicd_coverage_write(const char *path);

void nicd_delivered_one(void);

void nicd_judge_begin(void);
/* Called when reclaim returned 0: judges whether the queue has sent all `accepted` frames, those accepted before the
   call. */
void nicd_judge_reclaimed(unsigned queue, uint32_t accepted);
const char *nicd_judge_end(void);
/* The first function builds an arriving frame and returns its length; the second builds a frame to send. */
uint32_t nicd_make(const struct come *come, uint16_t number, uint8_t *bytes);
void nicd_make_sent(uint16_t number, uint32_t length, uint8_t *bytes);

/* Acts as the PF's driver for a virtual function: configures 64 pools of two queues and directs the function's frames
   to its pool. If `is_ready`, it also reports the device as ready. */
void nicd_set_up_host(unsigned function, bool is_ready);

/* The scenario functions that the explorer calls. */
const char *nicd_bring_up(void);
void nicd_begin(void);
const char *nicd_always(void);
const char *nicd_end(void);

/* --- for scenarios, in begin --- */

/* Declares a frame that will arrive, by its destination, kind and length. Returns its number. */
uint16_t nicd_come(struct come come);
/* Declares `count` frames of this length to the port's own address. */
void nicd_come_plain(uint32_t count, uint32_t length);
/* Declares frames that arrive only after the flow resumes. They must be the last ones declared. */
void nicd_come_late(uint32_t count, uint32_t length);
/* Declares one frame for each of `count` flows of a type. */
void nicd_come_flows(uint8_t type, uint16_t count);
/* Used by several families: whether a filter accepts a frame; a description of its destination; a check of a flow's
   queue against the current key and table (null, or what is wrong); a function that sets another key and table. */
bool nicd_is_wanted(const nicd_filter *filter, const struct come *come);
const char *nicd_whose(const struct come *come);
const char *nicd_judge_queue(uint16_t number);
void nicd_spread_otherwise(void);
/* Builds the rows that come from tables (kept.c). */
void nicd_make_rows(void);
/* Has the driver spread flows over its queues, if it has `rss`. For a virtual function, the PF's driver has already
   done so. */
void nicd_spread_flows(void);
/* Adds threads that receive frames, one per queue. */
void nicd_take_frames(void);
/* Adds a thread that sends `count` frames through a queue and waits until they are sent. */
void nicd_send_frames(uint16_t queue, uint32_t count, uint32_t length);
/* Adds a scenario thread that calls the driver. */
void nicd_control(void (*function)(void));
/* Adds a thread that plays another part: the PF's driver, or a neighbouring driver. */
void nicd_other(const char *name, void (*function)(void), bool waits_for_ever);

/* --- for scenarios, in a task --- */

bool nicd_open(void);
void nicd_close(void);
/* These fail the schedule if the driver returns false. */
void nicd_reset(void);
void nicd_resize(uint16_t slots);
void nicd_mtu(uint32_t frame);
void nicd_set_filter(const nicd_filter *filter);
void nicd_set_rss(const nicd_rss *rss);
void nicd_suspend(void);
void nicd_resume(void);
/* Returns whether the driver resized its rings. */
bool nicd_try_to_resize(uint16_t slots);
/* Releases `count` of the late frames, so that they arrive. */
void nicd_let_come(uint16_t count);
/* Interrupts the flow: after this call returns, no receive, send or reclaim runs until nicd_go_on. */
void nicd_hold(void);
void nicd_go_on(void);
/* Releases one of the late frames, if any remain, and returns its number. */
uint16_t nicd_let_one_come(void);
/* Tries to send one frame of this length. Returns whether the driver accepted it. */
bool nicd_send(uint16_t queue, uint32_t length);
uint32_t nicd_reclaim(uint16_t queue);
void nicd_rearm(uint16_t queue);
/* The mailbox. The PF's driver passes the number of the virtual function in vf; for a virtual function's driver, vf is
   0. */
bool nicd_mailbox_send(uint8_t vf, const uint32_t *words, uint32_t count);
bool nicd_mailbox_receive(uint8_t vf, uint32_t *words);
bool nicd_mailbox_ready(void);
/* The first retries nicd_send until the frame is accepted. The second waits until all frames of a queue are sent. */
void nicd_send_surely(uint16_t queue, uint32_t length);
void nicd_wait_until_out(uint16_t queue);
/* Receives one frame, if one is available. */
bool nicd_receive(uint16_t queue);
uint32_t nicd_before_look(void);
/* Waits until there have been more than `seen` events. */
void nicd_wait_for_event(uint32_t seen);
/* Waits until all declared frames are received and all accepted frames are sent. */
void nicd_wait_for_rest(void);
/* Waits until this many frames have been delivered in total. */
void nicd_wait_for(uint32_t delivered);

/* Formats a message into a buffer that the next call overwrites. */
const char *nicd_words(const char *form, ...) __attribute__((format(printf, 1, 2)));
/* Compares the driver's link state with LINKS. Returns null, or what is wrong. */
const char *nicd_judge_link(void);

/* For `see`: fails the schedule if the driver writes a ring's registers while its queue is enabled. */
void nicd_see_held(const nicxo_step *step, bool is_drivers);

/* --- for scenarios: reading the device without side effects --- */

static inline uint32_t nicd_peek(uint32_t address)
{
    return nicxo_peek(address);
}

#endif
