/* The calls between the card and a driver in Python, in both directions. */
#include <stdio.h>
#include <string.h>

#include "../../explore/python/python.h"
#include "../engine/drive.h"

/* The functions to call in Python, numbered as in the Python module. */
enum function {
    ASK_BEGIN,
    ASK_OPEN,
    ASK_CLOSE,
    ASK_RECEIVE,
    ASK_SEND,
    ASK_RECLAIM,
    ASK_INTERRUPT,
    ASK_REARM,
    ASK_THREAD,
    ASK_FILTER,
    ASK_RSS,
    ASK_MTU,
    ASK_RESIZE,
    ASK_RESET,
    ASK_SUSPEND,
    ASK_RESUME,
    ASK_LINK,
    ASK_MAILBOX_SEND,
    ASK_MAILBOX_RECEIVE,
    ASK_MAILBOX_READY,
    ASK_STATS,
    ASK_CONDITION
};

/* A driver as the Python module describes it. Bit f of `has` is set if the driver has function f. */
struct nicp_driver {
    const char *name;
    uint32_t can, has, threads, frame;
    uint16_t queues, slots;
    struct nicp_python python;
};

static struct nicp_driver python;

/* Calls a Python function. If it raises, the schedule fails: in a task immediately, so that this call doesn't return;
   elsewhere at the next step. */
static int64_t call(enum function function, uint64_t a, uint64_t b, uint64_t c)
{
    int64_t answer = nicp_ask(function, a, b, c);
    if (answer != NICP_RAISED)
        return answer;
    nicd_failed("%s", nicp_words());
    return 0;
}

/* --- what the card calls --- */

static uint64_t at(const void *place)
{
    return (uintptr_t)place;
}

static void begin(void)
{
    if (nicp_ask(ASK_BEGIN, 0, 0, 0) == NICP_RAISED)
        nicx_fail(nicp_words());
}

#define ASKS(type, name, parameters, ...)                                                                              \
    static type name parameters                                                                                        \
    {                                                                                                                  \
        return (type)call(__VA_ARGS__);                                                                                \
    }

ASKS(bool, open_port, (const nicd_setup *setup), ASK_OPEN, at(setup), 0, 0)
ASKS(bool, receive, (uint16_t queue, nicd_frame *frame), ASK_RECEIVE, queue, at(frame), 0)
ASKS(bool, send_frame, (uint16_t queue, const uint8_t *bytes, uint32_t length), ASK_SEND, queue, at(bytes), length)
ASKS(uint32_t, reclaim, (uint16_t queue), ASK_RECLAIM, queue, 0, 0)
ASKS(uint32_t, interrupt, (uint8_t vector), ASK_INTERRUPT, vector, 0, 0)
ASKS(bool, filter, (const nicd_filter *wanted), ASK_FILTER, at(wanted), 0, 0)
ASKS(bool, rss, (const nicd_rss *wanted), ASK_RSS, at(wanted), 0, 0)
ASKS(bool, mtu, (uint32_t frame), ASK_MTU, frame, 0, 0)
ASKS(bool, resize, (uint16_t slots), ASK_RESIZE, slots, 0, 0)
ASKS(bool, reset, (void), ASK_RESET, 0, 0, 0)
ASKS(bool, suspend, (void), ASK_SUSPEND, 0, 0, 0)
ASKS(bool, resume, (void), ASK_RESUME, 0, 0, 0)
ASKS(bool, link_is_up, (void), ASK_LINK, 0, 0, 0)
ASKS(bool, mailbox_send, (uint8_t vf, const uint32_t *message, uint32_t count), ASK_MAILBOX_SEND, vf, at(message),
     count)
ASKS(bool, mailbox_receive, (uint8_t vf, uint32_t message[NICD_WORDS]), ASK_MAILBOX_RECEIVE, vf, at(message), 0)
ASKS(bool, mailbox_ready, (void), ASK_MAILBOX_READY, 0, 0, 0)

static void close_port(void)
{
    call(ASK_CLOSE, 0, 0, 0);
}

static void stats(nicd_stats *stats)
{
    call(ASK_STATS, at(stats), 0, 0);
}

static void rearm(uint16_t queue)
{
    call(ASK_REARM, queue, 0, 0);
}

static void thread(uint32_t number)
{
    call(ASK_THREAD, number, 0, 0);
}

/* --- a whole program --- */

#define IF_IT_HAS(function, name) (python.has >> (function)&1 ? (name) : NULL)

static void refuse_thread(void)
{
    nicd_note("a call comes from a thread that the driver created itself: use the adapter's `threads` instead");
}

int nicp_main(int argc, char **argv, const struct nicp_driver *given);

int nicp_main(int argc, char **argv, const struct nicp_driver *given)
{
    python = *given;
    const nicd_driver driver = {
        .name = python.name,
        .can = python.can,
        .queues = python.queues,
        .slots = python.slots,
        .frame = python.frame,
        .begin = begin,
        .open = open_port,
        .close = close_port,
        .receive = IF_IT_HAS(ASK_RECEIVE, receive),
        .send = IF_IT_HAS(ASK_SEND, send_frame),
        .reclaim = IF_IT_HAS(ASK_RECLAIM, reclaim),
        .interrupt = IF_IT_HAS(ASK_INTERRUPT, interrupt),
        .rearm = IF_IT_HAS(ASK_REARM, rearm),
        .threads = python.threads,
        .thread = IF_IT_HAS(ASK_THREAD, thread),
        .filter = IF_IT_HAS(ASK_FILTER, filter),
        .rss = IF_IT_HAS(ASK_RSS, rss),
        .mtu = IF_IT_HAS(ASK_MTU, mtu),
        .resize = IF_IT_HAS(ASK_RESIZE, resize),
        .reset = IF_IT_HAS(ASK_RESET, reset),
        .suspend = IF_IT_HAS(ASK_SUSPEND, suspend),
        .resume = IF_IT_HAS(ASK_RESUME, resume),
        .link = IF_IT_HAS(ASK_LINK, link_is_up),
        .mailbox_send = IF_IT_HAS(ASK_MAILBOX_SEND, mailbox_send),
        .mailbox_receive = IF_IT_HAS(ASK_MAILBOX_RECEIVE, mailbox_receive),
        .mailbox_ready = IF_IT_HAS(ASK_MAILBOX_READY, mailbox_ready),
        .stats = IF_IT_HAS(ASK_STATS, stats),
    };
    nicp_open(&python.python, ASK_CONDITION, refuse_thread);
    return nicd_main(argc, argv, &driver);
}

/* --- what a driver calls besides the explorer's calls --- */

NICP_CALL(nicp_dma_alloc, (size_t bytes), nicd_dma_alloc(bytes))
NICP_CALL(nicp_dma_free, (uint64_t bus), (nicd_dma_free(bus), 0))
NICP_CALL(nicp_alloc, (size_t bytes), (uintptr_t)nicd_alloc(bytes))
NICP_CALL(nicp_free, (uint64_t piece), (nicd_free((void *)(uintptr_t)piece), 0))
NICP_CALL(nicp_deliver, (uint16_t queue, const uint8_t *bytes, uint32_t length),
          (nicd_deliver(queue, bytes, length), 0))
