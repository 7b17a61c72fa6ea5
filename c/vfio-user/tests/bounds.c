/* Checks that a guest's requests are served in pieces, with other clients' turns in between, and that each request is
   answered correctly or refused with a reason. Covers endless TSO packets, frames of every length, tails all around a
   ring, abandoned offloads, and IPsec. bounds FOLDER */
#define _GNU_SOURCE
#include <signal.h>
#include <string.h>
#include <sys/mman.h>
#include <sys/wait.h>
#include <time.h>
#include <unistd.h>

#include "../../tests/check.h"
#include "frames.h"
#include "nic82599.h"
#include "numbered.h"
#include "peer/peer.h"
#include "wire.h"

#define RAM_BYTES (2u << 20)
#define RAM 0x40000000u
#define BUFFER 0x100000u /* after the longest possible ring */
#define SLOTS_MOST 32768u
#define SECTXSTAT 0x08804u
#define SECRXSTAT 0x08D04u
#define SECURITY_OFF 2u
#define MANY 100u     /* answers that other clients get during a client's endless work */
#define TRIES 300000u /* tries of at least a millisecond each */
#define FRAME_MS 300000
#define ENDS_SECONDS 300
#define EXPECTED_TIMES 3u

static int ram_file, wire, control;
static uint8_t *ram;
static char wire_word[140], control_word[140];
static uint8_t frame[1u << 17];

static void make_ram(void)
{
    ram_file = memfd_create("ram", MFD_CLOEXEC);
    CHECK(ftruncate(ram_file, RAM_BYTES) == 0);
    ram = mmap(NULL, RAM_BYTES, PROT_READ | PROT_WRITE, MAP_SHARED, ram_file, 0);
    CHECK(ram != MAP_FAILED);
}

static void put(uint32_t slot, nic_desc descriptor)
{
    nic_desc_to_bytes(descriptor, ram + NIC_DESC_BYTES * slot);
}

static nic_desc data(uint32_t length, uint64_t more)
{
    return (nic_desc){RAM + BUFFER, NIC_TXD_DATA | NIC_TXD_DTALEN_IS(length) | more};
}

/* Ethernet, IPv4 and TCP headers of the usual lengths, and a tag. */
static nic_desc context(uint16_t mss, uint16_t tag)
{
    return (nic_desc){20 | 14 << 9 | (uint64_t)tag << 16,
                      NIC_TXD_DEXT | NIC_TXD_DTYP_IS(2) | 1 << 11 | UINT64_C(20) << 40 | (uint64_t)mss << 48};
}

/* ---- a server, and clients ---- */

static const char *begin(const char *const *words)
{
    const char *path = server_start(words);
    wire = peer_stream(strchr(wire_word, ':') + 1);
    control = peer_stream(strchr(control_word, '=') + 1);
    return path;
}

static void end(void)
{
    close(wire);
    close(control);
    server_stop();
}

static void come(struct peer *it, const char *path)
{
    peer_open(it, path);
    CHECK(peer_version(it) == 0 && peer_map(it, RAM, RAM_BYTES, 0, 3, ram_file) == 0);
}

/* Restarts a queue with its ring at this offset in memory. `registers` is the address of the queue's registers for this
   client. */
static void start(struct peer *it, uint32_t registers, uint32_t ring, uint32_t slots)
{
    peer_write(it, registers + 0x28, 0);
    peer_write(it, registers, RAM + ring);
    peer_write(it, registers + 4, 0);
    peer_write(it, registers + 8, slots * NIC_DESC_BYTES);
    peer_write(it, registers + 0x10, 0);
    peer_write(it, registers + 0x18, 0);
    peer_write(it, registers + 0x28, NIC_TXDCTL_ENABLE);
}

static void start_host(struct peer *it, uint32_t slots)
{
    peer_write(it, NIC_DMATXCTL, NIC_DMATXCTL_TE);
    start(it, NIC_TDBAL(0), 0, slots);
}

/* Polls a register until it has this value, as drivers do. */
static void until(struct peer *it, uint32_t address, uint32_t word)
{
    for (unsigned int i = 0; i < TRIES; i++) {
        if (peer_read(it, address) == word)
            return;
        usleep(1000);
    }
    CHECK(!"a register doesn't change to the expected value");
}

/* ---- frames of every length ---- */

/* Sends a frame of this length, or checks that the frame is refused: by the device, or as too long for the wire, which
   counts it. The next frame is sent in any case. */
static void one_length(struct peer *it, uint32_t length, bool fits)
{
    uint64_t refused = peer_count(control, "too long ");
    memset(ram + BUFFER, (int)(length % 251), length);
    start_host(it, 8);
    put(0, data(length, NIC_TXD_EOP | NIC_TXD_RS));
    peer_write(it, NIC_TDT(0), 1);
    until(it, fits ? NIC_TDH(0) : NIC_TXDCTL(0), fits);
    if (fits && length <= WIRE_FRAME_MOST)
        CHECK(peer_frame(wire, frame, sizeof frame, FRAME_MS) == length && memcmp(frame, ram + BUFFER, length) == 0);
    else
        CHECK(peer_count(control, "too long ") == refused + fits);
    memset(ram + BUFFER, 7, 60);
    start_host(it, 8);
    put(0, data(60, NIC_TXD_EOP | NIC_TXD_RS));
    peer_write(it, NIC_TDT(0), 1);
    CHECK(peer_frame(wire, frame, sizeof frame, FRAME_MS) == 60 && memcmp(frame, ram + BUFFER, 60) == 0);
}

/* Checks that a frame of this length arrives in 16 KB buffers. */
static void one_arrival(struct peer *it, uint32_t length)
{
    const uint32_t slots = 16, each = 0x4000;
    for (uint32_t slot = 0; slot < slots; slot++)
        put(slot, (nic_desc){RAM + BUFFER + each * slot, 0});
    peer_write(it, NIC_SRRCTL(0), NIC_SRRCTL_DESCTYPE_IS(1) | NIC_SRRCTL_BSIZEPACKET_IS(each >> 10));
    peer_write(it, NIC_RXCTRL, NIC_RXCTRL_RXEN);
    peer_write(it, NIC_FCTRL, NIC_FCTRL_BAM);
    start(it, NIC_RDBAL(0), 0, slots);
    peer_write(it, NIC_RDT(0), slots - 1);
    peer_read(it, NIC_STATUS);
    memset(frame, (int)(length % 251), length);
    memset(frame, 0xFF, 6);
    CHECK(peer_put_frame(wire, frame, length));
    until(it, NIC_RDH(0), (length + each - 1) / each);
    CHECK(memcmp(ram + BUFFER, frame, length) == 0);
}

static void lengths(struct peer *it)
{
    static const uint32_t all[] = {60, 1514, 9014, 16383, 16384, 16385, 32768, 49152, 65530, 65531};
    peer_write(it, NIC_HLREG0, peer_read(it, NIC_HLREG0) | 4);
    peer_write(it, NIC_MAXFRS, 0xFFFF0000);
    for (size_t i = 0; i < sizeof all / sizeof *all; i++) {
        one_length(it, all[i], true);
        one_arrival(it, all[i]);
    }
    one_length(it, 65532, false);
    CHECK(strstr(peer_request(control, "counts"), "faults: too long 1"));
}

/* ---- offloads ---- */

/* Begins a frame that requests an offload. The driver or a fault disables the frame's queue, and the driver enables it
   again. The next frame must not be affected. */
static void given_up(struct peer *it, uint64_t asks, bool faults)
{
    memset(ram + BUFFER, 'o', 200);
    put(0, context(500, 7));
    put(1, data(200, asks));
    put(2, (nic_desc){0xDEAD0000, NIC_TXD_DATA | NIC_TXD_EOP | NIC_TXD_DTALEN_IS(100)});
    start_host(it, 8);
    peer_write(it, NIC_TDT(0), faults ? 3 : 2);
    until(it, faults ? NIC_TXDCTL(0) : NIC_TDH(0), faults ? 0 : 2);
    memset(ram + BUFFER, 'n', 100);
    put(0, data(100, NIC_TXD_EOP | NIC_TXD_RS));
    start_host(it, 8);
    peer_write(it, NIC_TDT(0), 1);
    CHECK(peer_frame(wire, frame, sizeof frame, FRAME_MS) == 100 && memcmp(frame, ram + BUFFER, 100) == 0);
}

/* Checks that an unsupported request isn't partly performed: the device reports a fault and sends no byte. */
static void ipsec(struct peer *it)
{
    CHECK(peer_read(it, SECTXSTAT) & SECURITY_OFF && peer_read(it, SECRXSTAT) & SECURITY_OFF);
    for (uint64_t options = 4; options < 64; options++) {
        start_host(it, 8);
        put(0, context(500, 7));
        put(1, data(100, NIC_TXD_EOP | NIC_TXD_RS | NIC_TXD_POPTS_IS(options) | (options % 2 ? NIC_TXD_TSE : 0)));
        peer_write(it, NIC_TDT(0), 2);
        until(it, NIC_TXDCTL(0), 0);
    }
    CHECK(strstr(peer_request(control, "counts"), " offload 60") && peer_frame(wire, frame, sizeof frame, 0) == 0);
}

static void offloads(struct peer *it)
{
    const uint64_t asks[] = {NIC_TXD_TSE, NIC_TXD_VLE, NIC_TXD_POPTS_IS(2)};
    for (size_t i = 0; i < sizeof asks / sizeof *asks; i++) {
        given_up(it, asks[i], false);
        given_up(it, asks[i], true);
    }
    ipsec(it);
}

/* ---- pieces ---- */

/* Checks that when a tail moves around the longest ring, the server reads only a few descriptors each time. */
static void tails(struct peer *it)
{
    start_host(it, SLOTS_MOST);
    peer_write(it, NIC_TXDCTL(0), 0);
    uint64_t before = peer_count(control, "read ahead ");
    for (uint32_t i = 0; i < MANY; i++)
        peer_write(it, NIC_TDT(0), i % 2 ? SLOTS_MOST - 1 : 0);
    until(it, NIC_TDT(0), SLOTS_MOST - 1);
    CHECK(peer_count(control, "read ahead ") - before <= 64 * MANY);
}

/* Fills the longest ring with 256 KB TSO packets, with one byte per segment: about 2 billion segments. */
static uint32_t make_endless(void)
{
    uint32_t slot = 1;
    memset(ram + BUFFER, 0, 65535);
    ram[BUFFER + 127] = 0x45;
    put(0, (nic_desc){511 | 127 << 9,
                      NIC_TXD_DEXT | NIC_TXD_DTYP_IS(2) | 2 << 11 | UINT64_C(255) << 40 | UINT64_C(1) << 48});
    for (; slot + 4 < SLOTS_MOST; slot += 4)
        for (uint32_t i = 0; i < 4; i++)
            put(slot + i, data(65535, NIC_TXD_TSE | (i == 3 ? NIC_TXD_EOP | NIC_TXD_RS : 0)));
    return slot;
}

/* Sends a frame from the physical function's own queue, and receives one from the wire. */
static void pass_both_ways(struct peer *host)
{
    const uint32_t sends = BUFFER + 0x20000, receives = BUFFER + 0x21000, buffer = BUFFER + 0x30000;
    nic_desc_to_bytes(data(60, NIC_TXD_EOP | NIC_TXD_RS), ram + sends);
    nic_desc_to_bytes((nic_desc){RAM + buffer, 0}, ram + receives);
    start(host, NIC_TDBAL(100), sends, 8);
    peer_write(host, NIC_TDT(100), 1);
    peer_write(host, NIC_SRRCTL(0), NIC_SRRCTL_DESCTYPE_IS(1) | NIC_SRRCTL_BSIZEPACKET_IS(2));
    peer_write(host, NIC_RXCTRL, NIC_RXCTRL_RXEN);
    peer_write(host, NIC_FCTRL, NIC_FCTRL_BAM | NIC_FCTRL_UPE | NIC_FCTRL_MPE);
    start(host, NIC_RDBAL(0), receives, 8);
    peer_write(host, NIC_RDT(0), 1);
    until(host, NIC_RDT(0), 1); /* else the frame could reach the card before this write does */
    memset(frame, 0xFF, 60);
    CHECK(peer_put_frame(wire, frame, 60));
    until(host, NIC_TDH(100), 1);
    until(host, NIC_RDH(0), 1);
    CHECK(memcmp(ram + buffer, frame, 60) == 0);
}

/* Checks that during the virtual function's endless work, the physical function's client is served, its frames pass,
   and a request at the control socket is completed. */
static void endless(struct peer *host, struct peer *function)
{
    uint32_t tail = make_endless();
    peer_write(host, NIC_CTRL, NIC_CTRL_RST);
    peer_write(host, NIC_GCR_EXT, 3);
    peer_write(host, NIC_DMATXCTL, NIC_DMATXCTL_TE);
    peer_read(host, NIC_STATUS);
    start(function, NIC_VFTDBAL(0), 0, SLOTS_MOST);
    peer_write(function, NIC_VFTDT(0), tail);
    peer_read(function, NIC_VFSTATUS);
    uint64_t segments = peer_count(control, "TSO sends in ");
    for (unsigned int i = 0; i < MANY; i++)
        peer_read(host, NIC_STATUS);
    CHECK(peer_count(control, "TSO sends in ") > segments && peer_read(function, NIC_VFTDH(0)) < tail);
    pass_both_ways(host);
    CHECK(strstr(peer_request(control, "hold"), "ok") && strstr(peer_request(control, "tx 0"), "more remain"));
    CHECK(strstr(peer_request(control, "go"), "ok"));
}

/* Checks that the server also exits on request during the endless work. */
static void ends(void)
{
    struct timespec pause = {0, 10000000};
    int status = 0;
    CHECK(kill(server_process(), SIGTERM) == 0);
    for (int i = 0; i < 100 * ENDS_SECONDS; i++, nanosleep(&pause, NULL))
        if (waitpid(server_process(), &status, WNOHANG) == server_process()) {
            CHECK(WIFEXITED(status) && WEXITSTATUS(status) == 0);
            return;
        }
    kill(server_process(), SIGKILL);
    CHECK(!"the server doesn't exit");
}

/* ---- expected frames ---- */

/* Checks that the physical function's client gets its answers while a million frames are built. Returns false if the
   frames were built first, which can happen if this process gets the CPU late. */
static bool is_served_meanwhile(struct peer *host)
{
    CHECK(strstr(peer_request(control, "expect 1000000 9014"), "ok"));
    for (unsigned int i = 0; i < MANY; i++)
        peer_read(host, NIC_STATUS);
    return strstr(peer_request(control, "came"), " of 1000000 expected frames have been generated so far\n");
}

static void expected(struct peer *host)
{
    unsigned int times = 0;
    while (times < EXPECTED_TIMES && !is_served_meanwhile(host))
        times++;
    CHECK(times < EXPECTED_TIMES);
    CHECK(strstr(peer_request(control, "expect 10 60"), "ok"));
    while (strstr(peer_request(control, "came"), "have been generated so far"))
        ;
}

/* Sends frames while the expected ones are built in pieces. Some frames arrive before the expected frame with their
   number is built, some after. */
static void numbered(void)
{
    static const uint8_t to[6] = {2, 1}, from[6] = {2, 2}, other[6] = {2, 3};
    static struct frame made;
    struct numbered it;
    CHECK(numbered_start(&it, 1000, 200, to, from) && !numbered_is_ready(&it));
    for (unsigned int i = 1; i <= 1000; i++) {
        frame_make(&made, i * 7 % 1000 + 1, 200, to, from);
        numbered_take(&it, made.bytes, made.length);
        numbered_prepare(&it, 100);
    }
    frame_make(&made, 5, 200, to, other);
    numbered_take(&it, made.bytes, made.length);
    numbered_prepare(&it, SIZE_MAX);
    CHECK(numbered_is_ready(&it) && it.good == 1000 && it.twice == 0 && it.wrong == 1);
    frame_make(&made, 5, 200, to, from);
    numbered_take(&it, made.bytes, made.length);
    CHECK(it.twice == 1);
    numbered_end(&it);
    CHECK(!it.frame && !it.early);
}

int main(int count, char **own_words)
{
    static const char *const words[] = {"--functions=1", wire_word, control_word, NULL};
    const char *folder = count > 1 ? own_words[1] : "/tmp";
    char function_path[120];
    struct peer host, function;
    snprintf(wire_word, sizeof wire_word, "--wire=listen:%s/bounds.wire", folder);
    snprintf(control_word, sizeof control_word, "--control=%s/bounds.control", folder);
    make_ram();
    numbered();
    const char *path = begin(words);
    snprintf(function_path, sizeof function_path, "%s.vf0", path);
    come(&host, path);
    come(&function, function_path);
    lengths(&host);
    offloads(&host);
    tails(&host);
    expected(&host);
    peer_close(&function);
    peer_close(&host);
    end();
    path = begin(words);
    come(&host, path);
    come(&function, function_path);
    endless(&host, &function);
    ends();
    printf("bounds: passed\n");
    return 0;
}
