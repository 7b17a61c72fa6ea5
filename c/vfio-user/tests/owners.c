/* Runs three guests on one card, each with its own memory: one has the physical function, one a virtual function, and
   one the shadow of that virtual function. At random they set up rings, even for each other's queues, use each other's
   addresses, disconnect and connect. No byte of one guest's memory may be sent in another guest's frame or arrive in
   another guest's memory.

     owners SEED STEPS FOLDER */
#define _GNU_SOURCE
#include <string.h>
#include <sys/mman.h>
#include <sys/socket.h>
#include <unistd.h>

#include "../../tests/check.h"
#include "nic82599.h"
#include "peer/peer.h"

#define GUESTS 3u /* sockets; each has one client at a time, alternating between two kinds with separate memories */
#define MEMORIES (2 * GUESTS)
#define QUEUES 2u      /* number of the virtual function's queues */
#define OWN_QUEUE 100u /* the physical function's first queue that isn't the virtual function's */
#define RINGS 0u       /* layout of a memory: rings, 1 KB each */
#define RING 0x400u
#define HEAD 0x2000u
#define SENT 0x4000u /* bytes that a client's own descriptors send */
#define RECEIVED 0x10000u
#define SECRET 0x20000u /* bytes to which none of the client's descriptors points */
#define BYTES 0x40000u
#define COMMON 0x80000000u /* second address of each client's memory */
#define FROM_WIRE 0x77
#define VMOLR 0xF000u /* frames that a pool accepts */
#define RUN 4u        /* equal consecutive bytes that aren't a coincidence */

enum side { RECEIVE, TRANSMIT };

/* Each memory contains bytes that identify it. */
static uint8_t *memories[MEMORIES];
static int files[MEMORIES];
static struct peer peers[GUESTS];
static unsigned int lives[GUESTS];
static char paths[GUESTS][120];
static uint64_t frames_of[MEMORIES], frames_in;
static int wire, control;

static uint8_t sent_byte(unsigned int memory)
{
    return (uint8_t)(0x10 + memory);
}

static uint8_t secret_byte(unsigned int memory)
{
    return (uint8_t)(0xA0 + memory);
}

static unsigned int memory_of(unsigned int guest)
{
    return guest + GUESTS * (lives[guest] % 2);
}

static uint32_t address_of(unsigned int memory)
{
    return 0x10000000u * (memory % GUESTS + 1);
}

static bool one_in(unsigned int many)
{
    return below(many) == 0;
}

static void make_memory(unsigned int memory)
{
    files[memory] = memfd_create("guest", MFD_CLOEXEC);
    CHECK(ftruncate(files[memory], BYTES) == 0);
    uint8_t *at = mmap(NULL, BYTES, PROT_READ | PROT_WRITE, MAP_SHARED, files[memory], 0);
    CHECK(at != MAP_FAILED);
    memset(at + SENT, sent_byte(memory), RECEIVED - SENT);
    memset(at + SECRET, secret_byte(memory), BYTES - SECRET);
    memories[memory] = at;
}

/* ---- checks ---- */

static bool is_filled(const uint8_t *at, uint8_t byte, size_t length)
{
    return at[0] == byte && memcmp(at, at + 1, length - 1) == 0;
}

/* Checks that the bytes to send and the secret bytes in each memory are unchanged, because no client receives frames
   there. */
static void check_memories(void)
{
    for (unsigned int memory = 0; memory < MEMORIES; memory++) {
        CHECK(is_filled(memories[memory] + SENT, sent_byte(memory), RECEIVED - SENT));
        CHECK(is_filled(memories[memory] + SECRET, secret_byte(memory), BYTES - SECRET));
    }
}

/* Checks that a frame contains bytes from only one memory, and no secret ones. */
static void check_frame(const uint8_t *frame, size_t length)
{
    unsigned int whose = MEMORIES;
    for (size_t i = 0; i + RUN <= length; i++) {
        if (!is_filled(frame + i, frame[i], RUN))
            continue;
        for (unsigned int memory = 0; memory < MEMORIES; memory++) {
            CHECK(frame[i] != secret_byte(memory));
            if (frame[i] != sent_byte(memory))
                continue;
            CHECK(whose == MEMORIES || whose == memory);
            whose = memory;
        }
    }
    if (whose < MEMORIES)
        frames_of[whose]++;
}

static void look_at_wire(void)
{
    static uint8_t frame[1u << 17];
    size_t length;
    while ((length = peer_frame(wire, frame, sizeof frame, 0)) != 0)
        check_frame(frame, length);
}

/* ---- actions of guests ---- */

static void map(unsigned int guest)
{
    unsigned int memory = memory_of(guest);
    peer_unmap(&peers[guest], 0, UINT64_C(1) << 40);
    CHECK(peer_map(&peers[guest], address_of(memory), BYTES, 0, 3, files[memory]) == 0);
    CHECK(peer_map(&peers[guest], COMMON, BYTES, 0, 3, files[memory]) == 0);
}

static void come(unsigned int guest)
{
    peer_open(&peers[guest], paths[guest]);
    CHECK(peer_version(&peers[guest]) == 0);
    map(guest);
}

static void leave(unsigned int guest)
{
    peer_close(&peers[guest]);
    lives[guest]++;
    come(guest);
}

/* Assigns queues to the virtual function and enables reception, as the physical function's driver does. */
static void set_up_card(void)
{
    struct peer *host = &peers[0];
    peer_write(host, NIC_GCR_EXT, 3);
    peer_write(host, NIC_VT_CTL, UINT32_C(1) << 31 | 1);
    peer_write(host, VMOLR, 0x0F000000);
    for (uint32_t i = 0; i < 2; i++) {
        peer_write(host, NIC_VFRE(i), UINT32_MAX);
        peer_write(host, NIC_VFTE(i), UINT32_MAX);
    }
    peer_write(host, NIC_DMATXCTL, NIC_DMATXCTL_TE);
    peer_write(host, NIC_RXCTRL, NIC_RXCTRL_RXEN);
    peer_write(host, NIC_FCTRL, 0x700);
    peer_write(host, NIC_CTRL, one_in(4) ? NIC_CTRL_MASTER_DISABLE : 0);
}

/* Returns an address in another memory, which this memory's client hasn't mapped. */
static uint32_t foreign(unsigned int guest)
{
    unsigned int other = (guest + 1 + below(GUESTS - 1)) % GUESTS;
    return address_of(other) + (one_in(2) ? SECRET : SENT) + below(64) * 256;
}

static uint32_t own(unsigned int guest, uint32_t from, uint32_t slots)
{
    return (one_in(3) ? COMMON : address_of(memory_of(guest))) + from + below(slots) * 256;
}

static uint32_t queue_of(unsigned int guest)
{
    return guest == 0 && !one_in(3) ? OWN_QUEUE : below(QUEUES);
}

static uint32_t ring_at(uint32_t queue, enum side side)
{
    return RINGS + RING * (4 * side + queue % OWN_QUEUE + (queue >= OWN_QUEUE ? 2 : 0));
}

/* Writes a queue register, given by its address in the physical function. In a virtual function's window it has another
   offset. */
static void write_queue(unsigned int guest, uint32_t address, uint32_t word)
{
    bool is_own_window = guest != 0, is_transmit = address >= NIC_TDBAL(0) && address < NIC_TDBAL(128);
    uint32_t offset = is_transmit ? address - NIC_TDBAL(0) + NIC_VFTDBAL(0) : address;
    peer_write(&peers[guest], is_own_window ? offset : address, word);
}

static uint32_t base_register(uint32_t queue, enum side side)
{
    return side == TRANSMIT ? NIC_TDBAL(queue) : NIC_RDBAL(queue);
}

static void set_up_ring(unsigned int guest, uint32_t queue, enum side side)
{
    uint32_t at = base_register(queue, side);
    uint32_t base = one_in(8) ? foreign(guest) : own(guest, ring_at(queue, side), 1);
    if (!one_in(8))
        write_queue(guest, at + 0x28, 0);
    write_queue(guest, at, base);
    if (!one_in(8))
        write_queue(guest, at + 8, one_in(8) ? 512 : RING);
    if (side == TRANSMIT && one_in(3)) {
        write_queue(guest, NIC_TDWBAL(queue), (one_in(3) ? foreign(guest) : own(guest, HEAD, 1)) | 1);
        write_queue(guest, NIC_TDWBAH(queue), 0);
    }
    if (side == RECEIVE)
        write_queue(guest, at + 0x14, NIC_SRRCTL_DESCTYPE_IS(1) | NIC_SRRCTL_BSIZEPACKET_IS(1));
    write_queue(guest, at + 0x10, 0);
    write_queue(guest, at + 0x18, 0);
    if (!one_in(16))
        write_queue(guest, at + 0x28, NIC_TXDCTL_ENABLE);
}

static nic_desc descriptor(unsigned int guest, enum side side)
{
    bool is_foreign = one_in(4);
    if (side == RECEIVE)
        return (nic_desc){is_foreign ? foreign(guest) : own(guest, RECEIVED, 128), 0};
    if (one_in(8)) /* Ethernet, IP, TCP, and 100 bytes in a segment */
        return (nic_desc){20 | 14 << 9 | 7 << 16,
                          NIC_TXD_DEXT | NIC_TXD_DTYP_IS(2) | 1 << 11 | UINT64_C(20) << 40 | UINT64_C(100) << 48};
    uint64_t ends = one_in(3) ? 0 : NIC_TXD_EOP | NIC_TXD_RS;
    uint64_t asks = one_in(6) ? NIC_TXD_TSE : one_in(6) ? NIC_TXD_VLE : 0;
    return (nic_desc){is_foreign ? foreign(guest) : own(guest, SENT, 128),
                      NIC_TXD_DATA | ends | asks | NIC_TXD_DTALEN_IS(60 + below(400))};
}

static void fill_ring(unsigned int guest, uint32_t queue, enum side side)
{
    for (uint32_t slot = 0; slot < RING / NIC_DESC_BYTES; slot++) {
        nic_desc made = descriptor(guest, side);
        nic_desc_to_bytes(made, memories[memory_of(guest)] + ring_at(queue, side) + NIC_DESC_BYTES * slot);
    }
}

static void move_tail(unsigned int guest, uint32_t queue, enum side side)
{
    write_queue(guest, base_register(queue, side) + 0x18, one_in(50) ? 1000 : below(RING / NIC_DESC_BYTES));
}

static void frame_arrives(void)
{
    uint8_t frame[1500];
    memset(frame, FROM_WIRE, sizeof frame);
    memset(frame, 0xFF, 6);
    frames_in += peer_put_frame(wire, frame, 64 + below(1400));
}

/* Enables a guest's ring with the guest's descriptors in it, as a driver does. */
static void work(unsigned int guest, uint32_t queue, enum side side)
{
    uint32_t at = base_register(queue, side);
    set_up_card();
    peer_write(&peers[0], NIC_CTRL, 0);
    write_queue(guest, at + 0x28, 0);
    set_up_ring(guest, queue, side);
    fill_ring(guest, queue, side);
    write_queue(guest, at + 0x18, 20);
    if (side == RECEIVE)
        frame_arrives();
    peer_read(&peers[guest], NIC_STATUS);
}

static void step(void)
{
    unsigned int guest = below(GUESTS);
    enum side side = one_in(2) ? TRANSMIT : RECEIVE;
    uint32_t queue = queue_of(guest);
    switch (below(20)) {
    case 0:
    case 1: set_up_ring(guest, queue, side); break;
    case 2:
    case 3: fill_ring(guest, queue, side); break;
    case 4:
    case 5:
    case 6:
    case 7: move_tail(guest, queue, side); break;
    case 8:
    case 9: frame_arrives(); break;
    case 10: write_queue(guest, base_register(queue, side) + 0x28, one_in(2) ? 0 : NIC_TXDCTL_ENABLE); break;
    case 11: set_up_card(); break;
    case 12:
        if (one_in(20))
            map(guest);
        break;
    case 13:
        if (one_in(40))
            leave(guest);
        break;
    case 14:
        if (one_in(20))
            peer_request(control, one_in(3) ? "snapshot a" : "restore a");
        break;
    case 15: work(guest, queue, side); break;
    default: peer_read(&peers[guest], NIC_STATUS); break;
    }
}

/* Posts a guest's buffer that ends where its secret begins. Another guest sets the queue's buffer size to 16 KB, before
   or after the first guest sets up the ring. No frame may overrun the buffer. */
static void foreign_size(unsigned int guest, unsigned int other, bool is_before)
{
    const uint32_t at = base_register(0, RECEIVE), small = NIC_SRRCTL_DESCTYPE_IS(1) | NIC_SRRCTL_BSIZEPACKET_IS(2),
                   large = NIC_SRRCTL_DESCTYPE_IS(1) | NIC_SRRCTL_BSIZEPACKET_IS(16);
    const unsigned int memory = memory_of(guest);
    const nic_desc last = {address_of(memory) + SECRET - 2048, 0};
    uint8_t frame[3000];
    peer_write(&peers[0], NIC_CTRL, NIC_CTRL_RST);
    set_up_card();
    peer_write(&peers[0], NIC_CTRL, 0);
    peer_write(&peers[0], NIC_HLREG0, peer_read(&peers[0], NIC_HLREG0) | NIC_HLREG0_JUMBOEN);
    peer_write(&peers[0], NIC_MAXFRS, 9014 << 16);
    write_queue(guest, at + 0x28, 0);
    if (is_before)
        write_queue(other, at + 0x14, large);
    for (uint32_t slot = 0; slot < RING / NIC_DESC_BYTES; slot++)
        nic_desc_to_bytes(last, memories[memory] + ring_at(0, RECEIVE) + NIC_DESC_BYTES * slot);
    write_queue(guest, at, address_of(memory) + ring_at(0, RECEIVE));
    write_queue(guest, at + 8, RING);
    if (!is_before)
        write_queue(guest, at + 0x14, small);
    write_queue(guest, at + 0x28, NIC_RXDCTL_ENABLE);
    write_queue(guest, at + 0x18, 20);
    if (!is_before)
        write_queue(other, at + 0x14, large);
    memset(frame, FROM_WIRE, sizeof frame);
    memset(frame, 0xFF, 6);
    for (int i = 0; i < 4; i++)
        frames_in += peer_put_frame(wire, frame, sizeof frame);
    peer_request(control, "rx");
    peer_read(&peers[guest], NIC_STATUS);
    check_memories();
}

static void foreign_sizes(void)
{
    for (unsigned int guest = 0; guest < GUESTS; guest++)
        for (unsigned int other = 0; other < GUESTS; other++)
            for (int is_before = 0; guest != other && is_before < 2; is_before++)
                foreign_size(guest, other, is_before);
}

static void open_all(const char *path, const char *wire_path, const char *control_path)
{
    snprintf(paths[0], sizeof *paths, "%s", path);
    snprintf(paths[1], sizeof *paths, "%s.vf0", path);
    snprintf(paths[2], sizeof *paths, "%s.shadow0", path);
    for (unsigned int memory = 0; memory < MEMORIES; memory++)
        make_memory(memory);
    for (unsigned int guest = 0; guest < GUESTS; guest++)
        come(guest);
    wire = peer_stream(wire_path);
    control = peer_stream(control_path);
}

/* Checks that something was tested: for each guest, the clients of its two memories have together sent frames, and at
   least one of the two memories contains a frame from the wire. */
static void check_traffic(void)
{
    for (unsigned int guest = 0; guest < GUESTS; guest++) {
        bool has_got = memchr(memories[guest] + RECEIVED, FROM_WIRE, SECRET - RECEIVED) ||
                       memchr(memories[guest + GUESTS] + RECEIVED, FROM_WIRE, SECRET - RECEIVED);
        CHECK(has_got && frames_of[guest] + frames_of[guest + GUESTS] > 0);
    }
}

int main(int count, char **words)
{
    static char wire_word[140], control_word[140];
    static const char *const server_words[] = {"--functions=1", wire_word, control_word, NULL};
    unsigned long steps = count > 2 ? strtoul(words[2], NULL, 10) : 20000;
    const char *folder = count > 3 ? words[3] : "/tmp";
    chance_state = count > 1 ? strtoul(words[1], NULL, 10) + 1 : 1;
    snprintf(wire_word, sizeof wire_word, "--wire=listen:%s/nic82599-test.%ld.wire", folder, (long)getpid());
    snprintf(control_word, sizeof control_word, "--control=%s/nic82599-test.%ld.control", folder, (long)getpid());
    const char *path = server_start(server_words);
    open_all(path, strchr(wire_word, ':') + 1, strchr(control_word, '=') + 1);
    foreign_sizes();
    set_up_card();
    for (unsigned long i = 0; i < steps; i++) {
        step();
        look_at_wire();
        if (i % 64 == 0)
            check_memories();
    }
    peer_request(control, "go");
    look_at_wire();
    check_memories();
    check_traffic();
    for (unsigned int guest = 0; guest < GUESTS; guest++)
        peer_close(&peers[guest]);
    server_stop();
    printf("owners: %lu steps; %llu, %llu and %llu frames from three guests, %llu to them\n", steps,
           (unsigned long long)(frames_of[0] + frames_of[3]), (unsigned long long)(frames_of[1] + frames_of[4]),
           (unsigned long long)(frames_of[2] + frames_of[5]), (unsigned long long)frames_in);
    return 0;
}
