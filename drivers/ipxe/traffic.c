#include "traffic.h"

#include <stdio.h>
#include <string.h>

#include "card.h"
#include "efi.h"
#include "frames.h"
#include "run.h"
#include "verdict.h"

enum { ROOM = 4096, IDLE_MOST = 1000, BURST = 100, LET_IN = 64, FUNCTION_SLOTS = 8, AHEAD = 4, PATIENCE = 20 };
enum { UNICAST = 1, MULTICAST = 2, BROADCAST = 4, PROMISCUOUS = 8, ALL_MULTICAST = 16 };

static const uint8_t peer[6] = {0x02, 0, 0, 0, 0, 0x01};

static unsigned int frames = 1000, alike_in, alike_out;
static uint8_t own[6];
static EFI_SIMPLE_NETWORK *network;
static struct line_up due_in, due_out;

void traffic_set(unsigned int count)
{
    frames = count;
}

uint64_t traffic_drops(void)
{
    return card_function() == BUS_PHYSICAL ? 0 : LET_IN - FUNCTION_SLOTS;
}

/* ---- in ---- */

/* Returns whether the driver has a frame. If so, stores it in `room`, with its length. */
static bool receive(uint8_t room[ROOM], size_t *length)
{
    UINTN header = 0, bytes = ROOM;
    bus_receive(run_bus);
    EFI_STATUS status = network->Receive(network, &header, &bytes, room, NULL, NULL, NULL);
    *length = bytes;
    return status == EFI_SUCCESS;
}

static void compare_in(const uint8_t *bytes, size_t length)
{
    static struct frame frame;
    uint32_t number = 0;
    if (!line_up_take(&due_in, &number)) {
        problem("an unexpected %zu-byte frame arrived", length);
        return;
    }
    frame_make(&frame, number, FRAME_MAX, own, peer);
    if (frame_is(&frame, bytes, length))
        alike_in++;
    else
        problem("frame %u arrived with %zu bytes, but differs from the sent frame, which has %u", number, length,
                frame.length);
}

/* Delivers frames while the ring has room, only a few ahead of the driver. Returns the number of the next frame. */
static uint32_t give(uint32_t next, uint32_t end)
{
    static struct frame frame;
    for (unsigned int room = bus_room(run_bus, 0); room && next < end && line_up_left(&due_in) < AHEAD;
         room--, next++) {
        frame_make(&frame, next, FRAME_MAX, own, peer);
        if (bus_arrive(run_bus, frame.bytes, frame.length))
            line_up_put(&due_in, next);
        else
            problem("the device didn't accept frame %u", next);
    }
    return next;
}

static void come_in(uint32_t first)
{
    static uint8_t room[ROOM];
    uint32_t next = first, end = first + frames;
    alike_in = 0;
    for (unsigned int idle = 0; idle < IDLE_MOST && (next < end || line_up_left(&due_in));) {
        size_t length;
        next = give(next, end);
        idle = receive(room, &length) ? 0 : idle + 1;
        if (!idle)
            compare_in(room, length);
    }
    printf("in:  %u of %u frames correct, byte by byte and in order\n", alike_in, frames);
    if (alike_in != frames)
        problem("only %u of %u frames arrived", alike_in, frames);
}

/* ---- out ---- */

static void sent(void *of, uint16_t queue, const uint8_t *bytes, size_t length)
{
    (void)of;
    static struct frame frame;
    uint32_t number = 0;
    (void)queue;
    if (!line_up_take(&due_out, &number)) {
        problem("an unexpected %zu-byte frame was sent", length);
        return;
    }
    frame_make(&frame, number, FRAME_MAX, peer, own);
    if (frame_is(&frame, bytes, length))
        alike_out++;
    else
        problem("frame %u was sent with %zu bytes, but differs from the expected frame, which has %u", number, length,
                frame.length);
}

/* Collects the buffers of sent frames. Returns their number. */
static unsigned int recycle(void)
{
    unsigned int count = 0;
    for (void *buffer = &count; buffer; count += buffer != NULL) {
        UINT32 causes = 0;
        buffer = NULL;
        if (network->GetStatus(network, &causes, &buffer) != EFI_SUCCESS)
            break;
    }
    return count;
}

/* Tries to send until the driver accepts the frame or IDLE_MOST attempts have failed. Returns whether it did. */
static bool transmit(const struct frame *frame)
{
    for (unsigned int idle = 0; idle < IDLE_MOST; idle++)
        if (network->Transmit(network, 0, frame->length, (void *)frame->bytes, NULL, NULL, NULL) == EFI_SUCCESS)
            return true;
        else
            recycle();
    return false;
}

static void go_out(uint32_t first)
{
    static struct frame frame;
    unsigned int recycled = 0, taken = 0;
    alike_out = 0;
    bus_send_to(run_bus, sent, NULL);
    for (; taken < frames; taken++) {
        frame_make(&frame, first + taken, FRAME_MAX, peer, own);
        line_up_put(&due_out, first + taken);
        if (!transmit(&frame))
            break;
        recycled += recycle();
    }
    bus_send_to(run_bus, NULL, NULL);
    printf("out: %u of %u frames correct, byte by byte and in order; %u buffers returned\n", alike_out, frames,
           recycled);
    if (alike_out != frames || recycled != frames)
        problem("of %u frames, %u were accepted, %u were sent, and %u buffers were returned", frames, taken, alike_out,
                recycled);
}

/* ---- other requests ---- */

/* Receives frames until the driver has had none for a while. Returns their number. */
static unsigned int poll_all(void)
{
    static uint8_t room[ROOM];
    unsigned int count = 0;
    size_t length;
    for (unsigned int idle = 0; idle < PATIENCE; idle++)
        if (receive(room, &length)) {
            count++;
            idle = 0;
        }
    return count;
}

static void arrives(const char *what, const uint8_t to[6], bool is_wanted)
{
    static struct frame frame;
    frame_make(&frame, 77, FRAME_MAX, to, peer);
    bool is_let_in = bus_arrive(run_bus, frame.bytes, frame.length);
    unsigned int got = poll_all();
    if (is_let_in != is_wanted || got != is_wanted)
        problem("a frame to %s: the device accepted %d, and the driver received %u", what, is_let_in, got);
}

static void addresses(void)
{
    static const uint8_t all[6] = {255, 255, 255, 255, 255, 255}, other[6] = {2, 9, 9, 9, 9, 9};
    arrives("its own address", own, true);
    arrives("all", all, true);
    /* only the physical function is promiscuous */
    arrives("another address", other, card_function() == BUS_PHYSICAL);
}

static void link_changes(void)
{
    for (unsigned int is_up = 0; is_up < 2; is_up++) {
        card_link(is_up);
        poll_all();
        if (network->Mode->MediaPresent != is_up)
            problem("the link was %s, but the driver didn't report it", is_up ? "up" : "down");
    }
}

/* Delivers more frames at once than fit. A virtual function's ring fills up, and the device drops the other frames
   because of DROP_EN. */
static void burst(void)
{
    static struct frame frame;
    unsigned int let_in = 0, wanted = card_function() == BUS_PHYSICAL ? LET_IN : FUNCTION_SLOTS;
    for (unsigned int number = 0; number < BURST; number++) {
        frame_make(&frame, number, FRAME_MAX, own, peer);
        let_in += bus_arrive(run_bus, frame.bytes, frame.length);
    }
    unsigned int got = poll_all();
    printf("%u frames at once: %u accepted by the device, %u received by the driver\n", BURST, let_in, got);
    if (let_in != LET_IN || got != wanted || bus_peek(run_bus, NIC_MPC) != BURST - LET_IN)
        problem("of %u frames at once, %u were accepted, %u counted as missed, and the driver received %u", BURST,
                let_in, bus_peek(run_bus, NIC_MPC), got);
}

/* ---- the run ---- */

static bool open_network(void)
{
    EFI_STATUS status = network->Start(network);
    if (status == EFI_SUCCESS)
        status = network->Initialize(network, 0, 0);
    if (status == EFI_SUCCESS)
        status = network->ReceiveFilters(network, UNICAST | MULTICAST | BROADCAST | PROMISCUOUS | ALL_MULTICAST, 0,
                                         FALSE, 0, NULL);
    if (status != EFI_SUCCESS)
        problem("the network didn't open: status 0x%llx", (unsigned long long)status);
    return status == EFI_SUCCESS;
}

static void close_network(void)
{
    bus_enter(run_bus, CLOSE);
    if (network->Shutdown(network) != EFI_SUCCESS || network->Stop(network) != EFI_SUCCESS)
        problem("the network didn't close");
}

static void pass(unsigned int number)
{
    bus_enter(run_bus, number ? REOPEN : OPEN);
    if (!open_network())
        return;
    bus_enter(run_bus, number ? AGAIN : TRAFFIC);
    come_in(number * frames);
    go_out(number * frames);
    if (number) {
        addresses();
        link_changes();
        burst();
    }
    close_network();
}

void traffic_run(void)
{
    network = handle_find(&efi_network);
    if (!network) {
        problem("the driver provided no network interface");
        return;
    }
    memcpy(own, network->Mode->CurrentAddress.Addr, sizeof own);
    printf("%s, address %02x:%02x:%02x:%02x:%02x:%02x\n",
           card_function() == BUS_PHYSICAL ? "the physical function" : "virtual function 0", own[0], own[1], own[2],
           own[3], own[4], own[5]);
    if (!line_up_begin(&due_in, 2 * frames) || !line_up_begin(&due_out, 2 * frames)) {
        problem("out of memory");
        return;
    }
    pass(0);
    pass(1);
    line_up_end(&due_in);
    line_up_end(&due_out);
    bus_enter(run_bus, END);
}
