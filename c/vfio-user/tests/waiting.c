/* Checks that a virtual function's guest can't block frames for others that wait in front of the queues: by posting no
   buffers, by causing faults, or by disabling its queue halfway through a frame. */
#define _GNU_SOURCE
#include <poll.h>
#include <string.h>
#include <sys/mman.h>
#include <sys/socket.h>
#include <unistd.h>

#include "../../tests/check.h"
#include "nic82599.h"
#include "peer/peer.h"

#define BYTES 0x40000u
#define RING 0x1000u
#define SLOTS 32u
#define BUFFERS 0x10000u
#define BUFFER 2048u
#define NOWHERE 0x70000000u
#define HOST_QUEUE 126u /* first queue of pool 63 */
#define FRAME_BYTES 1500u

static const uint8_t host_mac[6] = {2, 0, 0, 0, 0, 63}, function_mac[6] = {2, 0, 0, 0, 0, 1};
static struct peer host, function;
static uint8_t *host_memory, *function_memory;
static int wire, control;

static uint8_t *come(struct peer *it, const char *path)
{
    int file = memfd_create("guest", MFD_CLOEXEC);
    CHECK(file >= 0 && ftruncate(file, BYTES) == 0);
    uint8_t *at = mmap(NULL, BYTES, PROT_READ | PROT_WRITE, MAP_SHARED, file, 0);
    CHECK(at != MAP_FAILED);
    peer_open(it, path);
    CHECK(peer_version(it) == 0 && peer_map(it, 0, BYTES, 0, 3, file) == 0);
    close(file);
    return at;
}

static void set_address(uint32_t entry, const uint8_t mac[6], uint32_t pool)
{
    peer_write(&host, NIC_RAL(entry), mac[0] | (uint32_t)mac[1] << 8 | (uint32_t)mac[2] << 16 | (uint32_t)mac[3] << 24);
    peer_write(&host, NIC_RAH(entry), NIC_RAH_AV | mac[4] | (uint32_t)mac[5] << 8);
    for (uint32_t half = 0; half < 2; half++)
        peer_write(&host, NIC_MPSAR(2 * entry + half), pool / 32 == half ? 1u << pool % 32 : 0);
}

/* Gives the physical function pool 63 and the virtual function pool 0. */
static void set_up_card(void)
{
    peer_write(&host, NIC_CTRL, NIC_CTRL_RST);
    peer_write(&host, NIC_GCR_EXT, 3);
    peer_write(&host, NIC_VT_CTL, UINT32_C(1) << 31 | 1 | 63 << 7);
    for (uint32_t i = 0; i < 2; i++)
        peer_write(&host, NIC_VFRE(i), UINT32_MAX);
    set_address(1, function_mac, 0);
    set_address(2, host_mac, 63);
    peer_write(&host, NIC_MRQC, 8);
    peer_write(&host, NIC_FCTRL, 0x700);
    peer_write(&host, NIC_RXCTRL, NIC_RXCTRL_RXEN);
}

/* Sets up a ring with the registers that begin at this address, and enables it. SRRCTL is written unless it is 0. */
static void start(struct peer *it, uint8_t *memory, uint32_t at, uint32_t ring, uint32_t control_word)
{
    for (uint32_t slot = 0; slot < SLOTS; slot++)
        nic_desc_to_bytes((nic_desc){BUFFERS + BUFFER * slot, 0}, memory + RING + NIC_DESC_BYTES * slot);
    peer_write(it, at + 0x28, 0);
    peer_write(it, at, ring);
    peer_write(it, at + 8, SLOTS * NIC_DESC_BYTES);
    if (control_word)
        peer_write(it, at + 0x14, control_word);
    peer_write(it, at + 0x10, 0);
    peer_write(it, at + 0x18, 0);
    peer_write(it, at + 0x28, NIC_RXDCTL_ENABLE);
}

static uint32_t buffers_of(uint32_t kilobytes)
{
    return NIC_SRRCTL_DESCTYPE_IS(1) | NIC_SRRCTL_BSIZEPACKET_IS(kilobytes);
}

static void send_to(const uint8_t mac[6])
{
    uint8_t frame[FRAME_BYTES] = {0};
    memcpy(frame, mac, 6);
    memcpy(frame + 6, "\2\0\0\0\0\x9\x8", 7);
    CHECK(peer_put_frame(wire, frame, sizeof frame));
}

/* Sends a frame to the physical function, which receives it unless an earlier frame blocks the queues forever. By then,
   all earlier frames have left the front of the queues. */
static void host_gets_one(void)
{
    const uint32_t at = NIC_RDBAL(HOST_QUEUE);
    uint32_t head = peer_read(&host, at + 0x10);
    send_to(host_mac);
    for (unsigned int i = 0; i < 60000 && peer_read(&host, at + 0x10) == head; i++)
        usleep(1000);
    CHECK(peer_read(&host, at + 0x10) == (head + 1) % SLOTS);
    peer_write(&host, at + 0x18, head); /* posts one more slot, to replace the one just used */
}

/* Returns whether frames are waiting in front of the queues, according to the control socket. */
static bool some_wait(void)
{
    return strstr(peer_request(control, "due"), "rx:") != NULL;
}

static void begin(void)
{
    set_up_card();
    start(&host, host_memory, NIC_RDBAL(HOST_QUEUE), RING, buffers_of(2));
    peer_write(&host, NIC_RDT(HOST_QUEUE), SLOTS - 1);
    host_gets_one();
    CHECK(!some_wait());
}

/* Sets up a ring outside the guest's memory, so that each frame ends in a fault. */
static void faults(void)
{
    begin();
    for (unsigned int i = 0; i < 5; i++) {
        start(&function, function_memory, NIC_VFRDBAL(0), NOWHERE, buffers_of(2));
        peer_write(&function, NIC_VFRDBAL(0) + 0x18, 7);
        peer_read(&function, 8);
        send_to(function_mac);
        host_gets_one();
        CHECK(!(peer_read(&function, NIC_VFRDBAL(0) + 0x28) & NIC_RXDCTL_ENABLE) && !some_wait());
    }
}

/* Disables a queue after the first KB of a frame is written: by a write, by a reset of the virtual function, or because
   its client leaves. The rest of the frame must be dropped, and the queue's next frame must arrive from its first byte
   on. */
static void off_in_the_middle(unsigned int how)
{
    begin();
    peer_request(control, "hold");
    start(&function, function_memory, NIC_VFRDBAL(0), RING, buffers_of(1));
    peer_request(control, "qstep rx 0");
    peer_write(&function, NIC_VFRDBAL(0) + 0x18, 1);
    peer_read(&function, 8);
    send_to(function_mac);
    while (!some_wait())
        usleep(1000);
    CHECK(strstr(peer_request(control, "rx"), "1 descriptors"));
    CHECK(some_wait());
    peer_request(control, "go");
    if (how == 0)
        peer_write(&function, NIC_VFRDBAL(0) + 0x28, 0);
    else if (how == 1)
        peer_write(&function, NIC_VFCTRL, NIC_PVFCTRL_RST);
    else
        CHECK(peer_ask(&function, VFU_DEVICE_RESET, NULL, 0, NULL, 0, NULL, 0) == 0);
    peer_read(&function, 8);
    host_gets_one();
    CHECK(!some_wait());
}

/* Lets a guest post no buffers and set DROP_EN to any value. The guest must read back what it wrote. */
static void nothing_posted(uint32_t control_word)
{
    begin();
    start(&function, function_memory, NIC_VFRDBAL(0), RING, control_word);
    uint32_t read = peer_read(&function, NIC_VFRDBAL(0) + 0x14);
    CHECK(control_word ? read == control_word : !(read & NIC_SRRCTL_DROP_EN));
    CHECK(peer_read(&function, NIC_VFRDBAL(0) + 0x28) & NIC_RXDCTL_ENABLE);
    for (unsigned int i = 0; i < 3; i++)
        send_to(function_mac);
    host_gets_one();
    CHECK(!some_wait());
}

/* Checks that the physical function's own queues behave as its driver configures them: without DROP_EN, a frame waits
   until the driver posts slots. */
static void host_waits(void)
{
    begin();
    start(&host, host_memory, NIC_RDBAL(HOST_QUEUE), RING, buffers_of(2));
    send_to(host_mac);
    while (!some_wait())
        usleep(1000);
    peer_write(&host, NIC_RDT(HOST_QUEUE), SLOTS - 1);
    while (some_wait())
        usleep(1000);
    host_gets_one();
}

int main(int count, char **words)
{
    char path[120], wire_word[300], control_word[300];
    CHECK(count == 2);
    snprintf(wire_word, sizeof wire_word, "--wire=listen:%s/wire", words[1]);
    snprintf(control_word, sizeof control_word, "--control=%s/control", words[1]);
    const char *const server_words[] = {"--functions=1", "--quiet", wire_word, control_word, NULL};
    const char *host_path = server_start(server_words);
    snprintf(path, sizeof path, "%s.vf0", host_path);
    control = peer_stream(control_word + strlen("--control="));
    wire = peer_stream(wire_word + strlen("--wire=listen:"));
    host_memory = come(&host, host_path);
    function_memory = come(&function, path);
    faults();
    for (unsigned int how = 0; how < 3; how++)
        off_in_the_middle(how);
    nothing_posted(buffers_of(2));
    nothing_posted(buffers_of(2) | NIC_SRRCTL_DROP_EN);
    nothing_posted(0);
    host_waits();
    close(wire);
    close(control);
    peer_close(&function);
    peer_close(&host);
    server_stop();
    printf("waiting: passed\n");
    return 0;
}
