/* The other end of the cable, for any of QEMU's network cards (drivers/qemu/run --measure). It listens on a UNIX socket
   in the format of -netdev stream, replies to ARP and ping for 10.0.0.1, and builds and compares frames
   (c/bus/frames.h).

     other_end SOCKET

   Each line on standard input is a request, like those of nic82599-vfio-user's control socket:

     frames COUNT MOST   sends COUNT frames of 60 to MOST bytes to the card
     expect COUNT MOST   expects COUNT frames of 60 to MOST bytes from the card
     came                prints how many of these have arrived, and within what time

   Each answer ends with "ok". The program ends when standard input does. */
#define _POSIX_C_SOURCE 200809L
#include <stdio.h>
#include <string.h>
#include <time.h>
#include <unistd.h>

#include "respond.h"
#include "traffic.h"
#include "wire.h"

#define AHEAD (1u << 20) /* limit for bytes waiting for the card */
#define AT_ONCE 64       /* frames between checks for requests */

#define OWN_ADDRESS 0x0A000001u

static const uint8_t card[6] = {0x02, 0x00, 0x00, 0x00, 0x82, 0x99}, own[6] = {0x02, 0x00, 0x00, 0x00, 0x00, 0x01};
static struct wire wire;
static struct traffic traffic;
static double first, last; /* arrival times of the first and the last expected frame */

static double now(void)
{
    struct timespec time;
    clock_gettime(CLOCK_MONOTONIC, &time);
    return (double)time.tv_sec + (double)time.tv_nsec / 1e9;
}

/* Expects these frames from the card. All are built before the request is answered, so that the time for that isn't
   measured. */
static bool expect(unsigned int count, uint16_t most)
{
    first = last = 0;
    if (!traffic_expect(&traffic, count, most, card))
        return false;
    traffic_prepare(&traffic, SIZE_MAX);
    return true;
}

static void obey(const char *line)
{
    unsigned int count, most;
    const struct numbered *expected = &traffic.expected;
    if (sscanf(line, "frames %7u %5u", &count, &most) == 2 && most >= FRAME_MIN && most <= FRAME_JUMBO) {
        traffic_send(&traffic, count, (uint16_t)most);
    } else if (sscanf(line, "expect %7u %5u", &count, &most) == 2 && most >= FRAME_MIN && most <= FRAME_JUMBO) {
        if (!expect(count, (uint16_t)most)) {
            puts("error: out of memory");
            return;
        }
    } else if (strcmp(line, "came") == 0) {
        printf("%u of %u, twice %u, wrong %u, in %.6f s\n", expected->good, expected->count, expected->twice,
               expected->wrong, last - first);
    } else {
        puts("error: expected frames COUNT MOST, expect COUNT MOST, or came");
        return;
    }
    puts("ok");
}

/* Serves the requests that have arrived. Returns false if standard input has ended. */
static bool take_requests(void)
{
    static char line[256];
    static size_t length;
    char bytes[256];
    ssize_t got = read(STDIN_FILENO, bytes, sizeof bytes);
    for (ssize_t i = 0; i < got; i++) {
        if (bytes[i] != '\n') {
            line[length] = bytes[i];
            length += length + 1 < sizeof line;
            continue;
        }
        line[length] = 0;
        obey(line);
        length = 0;
    }
    return got > 0;
}

static void take_frame(size_t length)
{
    static uint8_t reply[WIRE_FRAME_MOST];
    unsigned int before = traffic.expected.good;
    size_t answer = respond(wire.frame, length, own, OWN_ADDRESS, reply);
    if (answer)
        wire_send(&wire, 0, reply, answer);
    traffic_take(&traffic, wire.frame, length);
    if (traffic.expected.good == before)
        return;
    last = now();
    first = before ? first : last;
}

/* Receives some of the card's frames. Returns whether there may be more. */
static bool take_frames(void)
{
    for (unsigned int i = 0; i < AT_ONCE; i++) {
        size_t length = wire_next(&wire, false);
        if (!length)
            return false;
        take_frame(length);
    }
    return true;
}

static void give_frames(void)
{
    while (buffer_waiting(&wire.out) < AHEAD && traffic_has_more(&traffic)) {
        const struct frame *frame = traffic_next(&traffic);
        wire_send(&wire, 0, frame->bytes, frame->length);
    }
}

int main(int count, char **words)
{
    struct wire_options options = {.kind = WIRE_LISTEN, .path = words[count > 1]};
    struct pollfd polls[1 + WIRE_POLLS] = {{.fd = STDIN_FILENO, .events = POLLIN}};
    bool has_more = false;
    setvbuf(stdout, NULL, _IOLBF, 0);
    if (count != 2 || !wire_open(&wire, &options))
        return 2;
    traffic_begin(&traffic, card);
    for (;;) {
        wire_polls(&wire, polls + 1, true);
        if (poll(polls, 1 + WIRE_POLLS, has_more ? 0 : -1) < 0)
            break;
        if (polls[0].revents && !take_requests())
            break;
        wire_serve(&wire, polls + 1);
        has_more = take_frames();
        give_frames();
    }
    traffic_end(&traffic);
    wire_close(&wire);
    return 0;
}
