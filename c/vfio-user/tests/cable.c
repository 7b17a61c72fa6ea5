/* Checks that the link follows the wire: the card's link goes down when a stream's other end disconnects, and up when
   it reconnects. The request `link down` disconnects the other end, so that the peer's link can follow too. */
#define _GNU_SOURCE
#include <poll.h>
#include <string.h>
#include <sys/socket.h>
#include <unistd.h>

#include "../../tests/check.h"
#include "nic82599.h"
#include "peer/peer.h"

#define WAIT_MS 60000 /* for a busy machine */
#define LINKS_UP 0x40000000u

static struct peer peer;
static char wire_path[200], control_path[200];

static bool is_up(void)
{
    return (peer_read(&peer, NIC_LINKS) & LINKS_UP) != 0;
}

/* Waits until the link is up, or down. */
static void wait_for_link(bool up)
{
    for (unsigned int i = 0; i < WAIT_MS / 10; i++) {
        if (is_up() == up)
            return;
        usleep(10000);
    }
    CHECK(!"the link doesn't follow the wire");
}

/* Returns whether the server has closed this connection. */
static bool is_let_go(int file)
{
    char byte;
    struct pollfd end = {file, POLLIN, 0};
    return poll(&end, 1, WAIT_MS) == 1 && recv(file, &byte, 1, MSG_DONTWAIT) == 0;
}

/* Checks that a frame from this connection reaches the device, which counts the frame whether or not it accepts it. */
static void arrives(int file, int control)
{
    static const uint8_t frame[60] = {0xFF, 0xFF, 0xFF, 0xFF, 0xFF, 0xFF, 0x02};
    uint64_t before = peer_count(control, "; in ");
    CHECK(peer_put_frame(file, frame, sizeof frame));
    for (unsigned int i = 0; i < WAIT_MS / 10 && peer_count(control, "; in ") == before; i++)
        usleep(10000);
    CHECK(peer_count(control, "; in ") == before + 1);
}

/* Checks that the link is up before the first connection, as if the cable's other end were unknown, and then follows
   each connection. Returns the second connection. */
static int comes_and_goes(void)
{
    CHECK(is_up());
    int first = peer_stream(wire_path);
    CHECK(is_up());
    peer_write(&peer, NIC_EICR, NIC_EICR_LSC);
    close(first);
    wait_for_link(false);
    CHECK(peer_read(&peer, NIC_EICR) & NIC_EICR_LSC);
    int second = peer_stream(wire_path);
    wait_for_link(true);
    CHECK(peer_read(&peer, NIC_EICR) & NIC_EICR_LSC);
    return second;
}

/* Checks that a connection made while the link is down works as soon as the link is up. */
static void is_unplugged(int second, int control)
{
    arrives(second, control);
    CHECK(strncmp(peer_request(control, "link down"), "done", 4) == 0);
    CHECK(is_let_go(second) && !is_up());
    close(second);
    int third = peer_stream(wire_path);
    CHECK(!is_up());
    CHECK(strncmp(peer_request(control, "link up"), "done", 4) == 0);
    CHECK(is_up());
    arrives(third, control);
    /* the link was already up, so the connection stays */
    CHECK(strstr(peer_request(control, "link up"), "ok") && is_up());
    arrives(third, control);
    close(third);
    wait_for_link(false);
    /* the request takes effect even without a connection */
    CHECK(strncmp(peer_request(control, "link up"), "done", 4) == 0 && is_up());
}

int main(int count, char **words)
{
    char wire[220], control_word[220];
    CHECK(count == 2);
    snprintf(wire_path, sizeof wire_path, "%s/wire", words[1]);
    snprintf(control_path, sizeof control_path, "%s/control", words[1]);
    snprintf(wire, sizeof wire, "--wire=listen:%s", wire_path);
    snprintf(control_word, sizeof control_word, "--control=%s", control_path);
    const char *const given[] = {wire, control_word, "--quiet", NULL};
    peer_open(&peer, server_start(given));
    CHECK(peer_version(&peer) == 0);
    int control = peer_stream(control_path);
    is_unplugged(comes_and_goes(), control);
    close(control);
    peer_close(&peer);
    server_stop();
    printf("cable: passed\n");
    return 0;
}
