/* Checks that a frame is received, as on silicon, if only its VLAN tag makes it too long for the card. The driver's
   limits don't change. */
#define _GNU_SOURCE
#include <string.h>
#include <sys/mman.h>
#include <unistd.h>

#include "../../tests/check.h"
#include "nic82599.h"
#include "peer/peer.h"

#define RAM_BYTES 0x10000u
#define RING 0u
#define BUFFER 0x1000u
#define SLOTS 8u
#define WAIT_MS 60000 /* for a busy machine */
#define LARGEST 2048u
#define USUAL 1514u
#define TAG 4u

static struct peer peer;
static uint8_t *ram;
static int wire, control;

static uint64_t arrived(void)
{
    return peer_count(control, "; in ");
}

/* Sets up queue 0 with one 2 KB slot that the device owns. */
static void set_up(void)
{
    memset(ram, 0, RAM_BYTES);
    nic_desc_to_bytes(nic_rx_desc(BUFFER), ram + RING);
    peer_write(&peer, NIC_RXDCTL(0), 0);
    peer_write(&peer, NIC_FCTRL, NIC_FCTRL_UPE);
    peer_write(&peer, NIC_SRRCTL(0), NIC_SRRCTL_BSIZEPACKET_IS(2) | NIC_SRRCTL_DESCTYPE_IS(1));
    peer_write(&peer, NIC_RDBAL(0), RING);
    peer_write(&peer, NIC_RDLEN(0), SLOTS * NIC_DESC_BYTES);
    peer_write(&peer, NIC_RDH(0), 0);
    peer_write(&peer, NIC_RDT(0), 0);
    peer_write(&peer, NIC_RXDCTL(0), NIC_RXDCTL_ENABLE);
    peer_write(&peer, NIC_RXCTRL, NIC_RXCTRL_RXEN);
    peer_write(&peer, NIC_RDT(0), 1);
    CHECK(peer_read(&peer, NIC_RXDCTL(0)) & NIC_RXDCTL_ENABLE);
}

/* Returns whether each byte of a frame of this length reaches the driver's memory. Checks that the registers with the
   driver's limits don't change. */
static bool comes_in(size_t length, bool is_tagged, uint8_t second)
{
    uint8_t frame[LARGEST + TAG];
    uint64_t before = arrived();
    uint32_t control_word = peer_read(&peer, NIC_HLREG0), most = peer_read(&peer, NIC_MAXFRS);
    set_up();
    for (size_t k = 0; k < length; k++)
        frame[k] = (uint8_t)(k * 7 + length);
    frame[0] = 0x02;
    frame[12] = is_tagged ? 0x81 : 0x08;
    frame[13] = second;
    CHECK(peer_put_frame(wire, frame, length));
    for (unsigned int i = 0; i < WAIT_MS / 10 && arrived() == before; i++)
        usleep(10000);
    CHECK(arrived() == before + 1);
    CHECK(peer_read(&peer, NIC_HLREG0) == control_word && peer_read(&peer, NIC_MAXFRS) == most);
    nic_desc d = nic_desc_of_bytes(ram + RING);
    if (!nic_rx_is_done(d))
        return false;
    CHECK(nic_rx_is_end(d) && nic_rx_length(d) == length && memcmp(ram + BUFFER, frame, length) == 0);
    return true;
}

static void lengths(size_t most)
{
    CHECK(comes_in(most, false, 0) && comes_in(most, true, 0));
    CHECK(comes_in(most + 1, true, 0) && comes_in(most + TAG, true, 0));
    CHECK(!comes_in(most + TAG + 1, true, 0)); /* too long even without its tag */
    CHECK(!comes_in(most + 1, false, 0));      /* no tag */
    CHECK(!comes_in(most + 1, true, 1));       /* another type */
}

static void begin(const char *folder, const char *without)
{
    char wire_path[200], control_path[200], wire_word[220], control_word[220];
    snprintf(wire_path, sizeof wire_path, "%s/wire", folder);
    snprintf(control_path, sizeof control_path, "%s/control", folder);
    snprintf(wire_word, sizeof wire_word, "--wire=listen:%s", wire_path);
    snprintf(control_word, sizeof control_word, "--control=%s", control_path);
    const char *const words[] = {wire_word, control_word, "--quiet", without, NULL};
    peer_open(&peer, server_start(words));
    wire = peer_stream(wire_path);
    control = peer_stream(control_path);
}

static void end(void)
{
    close(wire);
    close(control);
    peer_close(&peer);
    server_stop();
}

int main(int count, char **words)
{
    CHECK(count == 2);
    int file = memfd_create("ram", MFD_CLOEXEC);
    CHECK(file >= 0 && ftruncate(file, RAM_BYTES) == 0);
    ram = mmap(NULL, RAM_BYTES, PROT_READ | PROT_WRITE, MAP_SHARED, file, 0);
    CHECK(ram != MAP_FAILED);
    begin(words[1], NULL);
    CHECK(peer_version(&peer) == 0 && peer_map(&peer, 0, RAM_BYTES, 0, 3, file) == 0);
    lengths(USUAL);
    peer_write(&peer, NIC_MAXFRS, 1604u << 16);
    lengths(USUAL); /* MAXFRS has no effect without jumbo frames */
    peer_write(&peer, NIC_HLREG0, peer_read(&peer, NIC_HLREG0) | NIC_HLREG0_JUMBOEN);
    lengths(1600);
    CHECK(peer_count(control, "longer by a tag ") == 6);
    end();
    begin(words[1], "--without=offloads");
    CHECK(peer_version(&peer) == 0 && peer_map(&peer, 0, RAM_BYTES, 0, 3, file) == 0);
    CHECK(comes_in(USUAL, true, 0) && !comes_in(USUAL + 1, true, 0)); /* the device's own limit */
    end();
    printf("tags: passed\n");
    return 0;
}
