/* A client that sends QEMU's requests, in QEMU's order: it inspects the device, maps memory, sets eventfds, resets the
   device, and brings up a queue each way. Also tests hostile clients. */
#define _GNU_SOURCE
#include <errno.h>
#include <fcntl.h>
#include <poll.h>
#include <string.h>
#include <sys/eventfd.h>
#include <sys/mman.h>
#include <sys/socket.h>
#include <sys/un.h>
#include <unistd.h>

#include "../../tests/check.h"
#include "nic82599.h"
#include "peer/peer.h"

#define RAM_BYTES (1u << 20)
#define RAM 0x40000000u /* start of memory: above the addresses that the device can use */
#define PAGE 4096u
#define RX_RING 0x1000u
#define TX_RING 0x2000u
#define BUFFERS 0x10000u
#define BUFFER 2048u
#define FRAME 0x80000u
#define SLOTS 64u
#define ARP_BYTES 60u
#define TRIES 300000u /* tries of at least a millisecond each */
#define ANSWER_MS 300000
#define RESETS 20u

static int ram_file;
static uint8_t *ram;

static void make_ram(void)
{
    ram_file = memfd_create("ram", MFD_CLOEXEC);
    CHECK(ftruncate(ram_file, RAM_BYTES) == 0);
    ram = mmap(NULL, RAM_BYTES, PROT_READ | PROT_WRITE, MAP_SHARED, ram_file, 0);
    CHECK(ram != MAP_FAILED);
}

static void put64(uint32_t at, uint64_t value)
{
    memcpy(ram + at, &value, sizeof value);
}

static uint64_t get64(uint32_t at)
{
    uint64_t value;
    memcpy(&value, ram + at, sizeof value);
    return value;
}

/* Waits until the guest's descriptor is done. */
static void wait_for(uint32_t at, uint64_t done)
{
    for (unsigned int i = 0; i < TRIES; i++) {
        if (__atomic_load_n((uint64_t *)(void *)(ram + at), __ATOMIC_ACQUIRE) & done)
            return;
        usleep(1000);
    }
    CHECK(!"a descriptor isn't written back");
}

/* ---- QEMU's requests before the guest runs ---- */

static void look_at_device(struct peer *it)
{
    struct vfu_device_info info = {.argsz = sizeof info};
    CHECK(peer_ask(it, VFU_DEVICE_GET_INFO, &info, sizeof info, NULL, 0, &info, sizeof info) == 0);
    CHECK(info.flags == (VFU_DEVICE_PCI | VFU_DEVICE_RESETS) && info.regions == 9 && info.irqs == 5);
    for (uint32_t index = 0; index < 10; index++) {
        struct vfu_region_info region = {.argsz = sizeof region, .index = index};
        uint32_t error =
            peer_ask(it, VFU_DEVICE_GET_REGION_INFO, &region, sizeof region, NULL, 0, &region, sizeof region);
        CHECK(error == (index < 9 ? 0 : EINVAL));
        CHECK(error || region.size == (index == 0 ? 0x20000 : index == 4 ? 0x4000 : index == 7 ? 4096 : 0));
    }
    for (uint32_t index = 0; index < 6; index++) {
        struct vfu_irq_info irq = {.argsz = sizeof irq, .index = index};
        uint32_t error = peer_ask(it, VFU_DEVICE_GET_IRQ_INFO, &irq, sizeof irq, NULL, 0, &irq, sizeof irq);
        CHECK(error == (index < 5 ? 0 : EINVAL));
        CHECK(error || irq.count == (index == 2 ? 64 : 1));
    }
}

static void look_at_config(struct peer *it)
{
    CHECK(peer_config(it, 0, 4) == 0x10F78086 && peer_config(it, 8, 4) == 0x02000001);
    CHECK(peer_config(it, 0x10, 4) == 0xC && peer_config(it, 0x20, 4) == 0xC && peer_config(it, 0x30, 4) == 0);
    peer_set_config(it, 0x30, 4, 0xFFFFF800);
    CHECK(peer_config(it, 0x30, 4) == 0 && peer_config(it, 0x3D, 1) == 1);
    CHECK(peer_config(it, 0x34, 1) == 0x40 && peer_config(it, 0x40, 2) == 0x5001 && peer_config(it, 0x50, 2) == 0x7005);
    CHECK(peer_config(it, 0x52, 2) == 0x0180 && peer_config(it, 0x70, 2) == 0xA011);
    CHECK(peer_config(it, 0x72, 2) == 63 && peer_config(it, 0x74, 4) == 4 && peer_config(it, 0x78, 4) == 0x2004);
    CHECK(peer_config(it, 0xA0, 2) == 0x0010 && peer_config(it, 0xFFF, 1) == 0);
}

static void bad_accesses(struct peer *it)
{
    static const struct vfu_access accesses[] = {
        {0x20000, 0, 4}, {0x1FFFD, 0, 4},    {UINT64_MAX, 0, 4}, {UINT64_MAX - 3, 0, 4}, {0, 0, 0},
        {0, 0, 4097},    {0, 0, UINT32_MAX}, {0, 1, 4},          {0x3FFD, 4, 4},         {4096, 7, 1},
        {0, 8, 4},       {0, 9, 4},          {0, UINT32_MAX, 4},
    };
    uint8_t reply[64];
    for (size_t i = 0; i < sizeof accesses / sizeof *accesses; i++) {
        CHECK(peer_ask(it, VFU_REGION_READ, &accesses[i], sizeof *accesses, NULL, 0, reply, sizeof reply) == EINVAL);
        CHECK(peer_ask(it, VFU_REGION_WRITE, &accesses[i], sizeof *accesses, NULL, 0, reply, sizeof reply) == EINVAL);
    }
    struct vfu_writes many = {3};
    CHECK(peer_ask(it, VFU_REGION_WRITE_MULTI, &many, sizeof many, NULL, 0, reply, sizeof reply) == EINVAL);
    CHECK(peer_ask(it, VFU_DMA_READ, reply, 32, NULL, 0, reply, sizeof reply) == ENOTSUP);
    CHECK(peer_ask(it, 999, reply, 32, NULL, 0, reply, sizeof reply) == ENOTSUP);
    CHECK(peer_ask(it, VFU_DMA_MAP, reply, 31, NULL, 0, reply, sizeof reply) == EINVAL);
    /* registers are four bytes wide: a read of any other size returns ones */
    struct vfu_access odd = {NIC_STATUS + 1, 0, 2};
    CHECK(peer_ask(it, VFU_REGION_READ, &odd, sizeof odd, NULL, 0, reply, sizeof reply) == 0);
    CHECK(reply[16] == 0xFF && reply[17] == 0xFF);
}

/* Checks that a socket can't be mapped. Uses a new one: the server closes received files later, and until then its copy
   of the client's socket would hide that the client has left. */
static void map_socket(struct peer *it)
{
    int other = socket(AF_UNIX, SOCK_STREAM | SOCK_CLOEXEC, 0);
    CHECK(other >= 0 && peer_map(it, RAM, RAM_BYTES, 0, 3, other) == EPERM);
    close(other);
}

static void map_memory(struct peer *it)
{
    CHECK(peer_map(it, RAM, RAM_BYTES, 0, 3, -1) == EINVAL); /* writable, but without a file */
    CHECK(peer_map(it, 0xFFFC0000, 0x40000, 0, 1, -1) == 0); /* read-only without a file, like a ROM */
    CHECK(peer_map(it, RAM, RAM_BYTES + PAGE, 0, 3, ram_file) == EINVAL);
    CHECK(peer_map(it, RAM, RAM_BYTES, PAGE, 3, ram_file) == EINVAL);
    CHECK(peer_map(it, RAM + 4, PAGE, 0, 3, ram_file) == EINVAL);
    CHECK(peer_map(it, RAM, 100, 0, 3, ram_file) == EINVAL);
    CHECK(peer_map(it, UINT64_MAX - PAGE + 1, 2 * PAGE, 0, 3, ram_file) == EINVAL);
    map_socket(it);
    CHECK(peer_map(it, RAM, RAM_BYTES, 0, 3, ram_file) == 0);
    CHECK(peer_map(it, RAM, PAGE, 0, 3, ram_file) == EEXIST);
    CHECK(peer_map(it, RAM + RAM_BYTES - PAGE, 2 * PAGE, 0, 3, ram_file) == EEXIST);
    /* the firmware causes QEMU to map RAM again, in pieces */
    CHECK(peer_unmap(it, RAM, PAGE) == EINVAL && peer_unmap(it, RAM - PAGE, RAM_BYTES + 2 * PAGE) == 0);
    CHECK(peer_map(it, RAM, 3 * PAGE, 0, 3, ram_file) == 0);
    CHECK(peer_map(it, RAM + 3 * PAGE, RAM_BYTES - 3 * PAGE, 3 * PAGE, 3, ram_file) == 0);
}

/* ---- a driver's requests ---- */

/* Polls a register, as drivers do. */
static void until(struct peer *it, uint32_t address, uint32_t mask, uint32_t word)
{
    for (unsigned int i = 0; i < TRIES; i++) {
        if ((peer_read(it, address) & mask) == word)
            return;
        usleep(1000);
    }
    CHECK(!"a register doesn't change to the expected value");
}

static void start_queues(struct peer *it)
{
    peer_write(it, NIC_RDBAL(0), RAM + RX_RING);
    peer_write(it, NIC_RDBAH(0), 0);
    peer_write(it, NIC_RDLEN(0), SLOTS * 16);
    peer_write(it, NIC_SRRCTL(0), NIC_SRRCTL_DESCTYPE_IS(1) | NIC_SRRCTL_BSIZEPACKET_IS(2));
    peer_write(it, NIC_TDBAL(0), RAM + TX_RING);
    peer_write(it, NIC_TDLEN(0), SLOTS * 16);
    peer_write(it, NIC_RXCTRL, NIC_RXCTRL_RXEN);
    peer_write(it, NIC_DMATXCTL, NIC_DMATXCTL_TE);
    peer_write(it, NIC_RXDCTL(0), NIC_RXDCTL_ENABLE);
    peer_write(it, NIC_TXDCTL(0), NIC_TXDCTL_ENABLE);
    until(it, NIC_RXDCTL(0), NIC_RXDCTL_ENABLE, NIC_RXDCTL_ENABLE);
    until(it, NIC_TXDCTL(0), NIC_TXDCTL_ENABLE, NIC_TXDCTL_ENABLE);
    CHECK(peer_read(it, NIC_RDBAL(0)) == RAM + RX_RING && peer_read(it, NIC_TDBAL(0)) == RAM + TX_RING);
    for (uint32_t slot = 0; slot < SLOTS; slot++) {
        put64(RX_RING + 16 * slot, RAM + BUFFERS + BUFFER * slot);
        put64(RX_RING + 16 * slot + 8, 0);
    }
    peer_write(it, NIC_RDT(0), SLOTS - 1);
}

static void start_interrupts(struct peer *it, int event)
{
    int files[1] = {event};
    peer_set_config(it, 0x72, 2, 0x8000);
    CHECK(peer_vectors(it, 0, 1, NULL, 0) == 0);
    CHECK(peer_vectors(it, 0, 1, files, 1) == 0);
    CHECK(peer_vectors(it, 63, 2, files, 1) == EINVAL && peer_vectors(it, UINT32_MAX, 2, files, 1) == EINVAL);
    CHECK(peer_vectors(it, 1, 1, &ram_file, 1) == EINVAL); /* not an eventfd */
    peer_write(it, NIC_IVAR(0), 0x80);
    peer_write(it, NIC_EIMS, 1);
}

static void make_arp(uint8_t *frame)
{
    static const uint8_t head[] = {0xFF, 0xFF, 0xFF, 0xFF, 0xFF, 0xFF, 2, 0, 0, 0, 0x82, 0x99, 8,    6,
                                   0,    1,    8,    0,    6,    4,    0, 1, 2, 0, 0,    0,    0x82, 0x99,
                                   10,   0,    0,    2,    0,    0,    0, 0, 0, 0, 10,   0,    0,    1};
    memset(frame, 0, ARP_BYTES);
    memcpy(frame, head, sizeof head);
}

/* Sends an ARP request in two buffers, and checks that the reply and its interrupt arrive. */
static void pass_one(struct peer *it, uint32_t slot, int event)
{
    uint64_t count;
    struct pollfd poll_for = {event, POLLIN, 0};
    make_arp(ram + FRAME);
    put64(TX_RING + 32 * slot, RAM + FRAME);
    put64(TX_RING + 32 * slot + 8, NIC_TXD_DATA | NIC_TXD_DTALEN_IS(20));
    put64(TX_RING + 32 * slot + 16, RAM + FRAME + 20);
    put64(TX_RING + 32 * slot + 24, NIC_TXD_DATA | NIC_TXD_DTALEN_IS(40) | NIC_TXD_EOP | NIC_TXD_RS);
    peer_write(it, NIC_TDT(0), 2 * slot + 2);
    wait_for(TX_RING + 32 * slot + 24, NIC_TXWB_DD);
    CHECK(!(get64(TX_RING + 32 * slot + 8) & NIC_TXWB_DD)); /* without RS there is no write-back */
    wait_for(RX_RING + 16 * slot + 8, NIC_RXWB_DD);
    uint64_t status = get64(RX_RING + 16 * slot + 8);
    const uint8_t *frame = ram + BUFFERS + BUFFER * slot;
    CHECK(status & NIC_RXWB_EOP && (status & NIC_RXWB_PKT_LEN) >> NIC_RXWB_PKT_LEN_SHIFT == ARP_BYTES);
    CHECK(memcmp(frame, ram + FRAME + 6, 6) == 0 && frame[21] == 2 && memcmp(frame + 28, ram + FRAME + 38, 4) == 0);
    until(it, NIC_RDH(0), UINT32_MAX, slot + 1);
    CHECK(poll(&poll_for, 1, ANSWER_MS) == 1 && read(event, &count, sizeof count) == sizeof count && count >= 1);
    peer_read(it, NIC_EICR);
    peer_write(it, NIC_EIMS, 1);
}

/* Checks that a driver's mistakes are refused, and that the card works again after a reset. */
static void lose_descriptors(struct peer *it)
{
    peer_write(it, NIC_TDT(0), 1000);
    until(it, NIC_TXDCTL(0), NIC_TXDCTL_ENABLE, 0);
    peer_write(it, NIC_CTRL, NIC_CTRL_RST);
    until(it, NIC_CTRL, NIC_CTRL_RST, 0);
    CHECK(peer_read(it, NIC_RDBAL(0)) == 0 && peer_read(it, NIC_RDLEN(0)) == 0);
}

/* Runs a driver, with `event` for vector 0. */
static void drive(struct peer *it, int event)
{
    start_interrupts(it, event);
    for (int time = 0; time < 2; time++) {
        start_queues(it);
        peer_write(it, NIC_IVAR(0), 0x80);
        peer_write(it, NIC_EIMS, 1);
        for (uint32_t slot = 0; slot < 20; slot++)
            pass_one(it, slot, event);
        lose_descriptors(it);
    }
}

static void sriov_is_hidden_until_reset(struct peer *it)
{
    CHECK(peer_config(it, 0x100, 4) == 0 && peer_config(it, 0xFE, 4) == 0);
    CHECK(peer_ask(it, VFU_DEVICE_RESET, NULL, 0, NULL, 0, NULL, 0) == 0);
    CHECK(peer_config(it, 0x100, 4) == 0x00010010 && peer_config(it, 0x10E, 2) == 2);
    peer_set_config(it, 0x124, 4, UINT32_MAX);
    CHECK(peer_config(it, 0x124, 4) == 0xFFFFC00C);
    peer_set_config(it, 0xA8, 2, 0x8000); /* function level reset, which reads as 0 */
    CHECK(peer_config(it, 0xA8, 2) == 0);
}

static void as_qemu_does(const char *path)
{
    struct peer peer;
    int event = eventfd(0, EFD_CLOEXEC | EFD_NONBLOCK);
    uint8_t reply[64];
    peer_open(&peer, path);
    CHECK(peer_ask(&peer, VFU_DEVICE_RESET, NULL, 0, NULL, 0, reply, sizeof reply) == EPROTO);
    CHECK(peer_version(&peer) == 0);
    look_at_device(&peer);
    look_at_config(&peer);
    bad_accesses(&peer);
    map_memory(&peer);
    sriov_is_hidden_until_reset(&peer);
    drive(&peer, event);
    peer_close(&peer);
    close(event);
}

/* ---- a held device, and delayed steps ---- */

static int control;

/* Returns the whole answer to a request. */
static const char *asked(const char *words)
{
    static char answer[16384];
    size_t length = 0;
    CHECK(send(control, words, strlen(words), 0) == (ssize_t)strlen(words) && send(control, "\n", 1, 0) == 1);
    do {
        ssize_t got = recv(control, answer + length, sizeof answer - 1 - length, 0);
        CHECK(got > 0);
        length += (size_t)got;
        answer[length] = 0;
    } while (!strstr(answer, "ok\n") && !strstr(answer, "error: "));
    return answer;
}

static bool says(const char *words, const char *text)
{
    return strstr(asked(words), text) != NULL;
}

/* Returns whether the answer eventually contains the string: the server passes frames to the card over several
   turns. */
static bool comes_to_say(const char *words, const char *text)
{
    for (unsigned int i = 0; i < TRIES; i++) {
        if (says(words, text))
            return true;
        usleep(1000);
    }
    return false;
}

static void hostile_requests(void)
{
    static char line[1000];
    memset(line, 'x', sizeof line - 1);
    CHECK(says(line, "error: ") && says("", "error: ") && says("hol", "error: ") && says("holds", "error: "));
    CHECK(says("tx", "error: ") && says("tx 128", "error: ") && says("tx -1", "error: ") && says("tx 1 2", "error: "));
    CHECK(says("peek 1", "error: ") && says("peek 00008x", "error: ") && says("link", "error: "));
    CHECK(says("frames 1", "error: ") && says("frames 1 59", "error: ") && says("frames 9999999 60", "error: "));
    CHECK(says("qstep", "error: ") && says("qstep rx", "error: ") && says("expect 5 60 zz", "error: "));
    CHECK(says("help", "hold") && says("counts", "wire: out"));
}

static void connect_control(const char *path)
{
    struct sockaddr_un name = {.sun_family = AF_UNIX};
    snprintf(name.sun_path, sizeof name.sun_path, "%s", path);
    control = socket(AF_UNIX, SOCK_STREAM, 0);
    CHECK(connect(control, (const struct sockaddr *)&name, sizeof name) == 0);
}

/* Connects a client and enables its queues. */
static void open_started(struct peer *it, const char *path)
{
    peer_open(it, path);
    CHECK(peer_version(it) == 0 && peer_map(it, RAM, RAM_BYTES, 0, 3, ram_file) == 0);
    CHECK(peer_ask(it, VFU_DEVICE_RESET, NULL, 0, NULL, 0, NULL, 0) == 0);
    start_queues(it);
}

/* Writes a frame into a slot, and hands it to the device. */
static void give_frame(struct peer *it, uint32_t slot)
{
    make_arp(ram + FRAME);
    put64(TX_RING + 16 * slot, RAM + FRAME);
    put64(TX_RING + 16 * slot + 8, NIC_TXD_DATA | NIC_TXD_DTALEN_IS(ARP_BYTES) | NIC_TXD_EOP | NIC_TXD_RS);
    peer_write(it, NIC_TDT(0), slot + 1);
}

/* GPIE and IVAR_MISC matter to MSI-X messages, but not to the line. */
static void why_of_line(struct peer *peer)
{
    peer_write(peer, NIC_EIMS, NIC_EIMS_LSC);
    peer_write(peer, NIC_EICS, NIC_EICS_MAILBOX | NIC_EICS_LSC);
    CHECK(says("why", "MailBox: the mask is 0") && !says("why", "GPIE") && !says("why", "IVAR_MISC"));
    peer_set_config(peer, 0x72, 2, 0x8000);
    CHECK(says("why", "GPIE.Multiple_MSIX 0: ") && says("why", "int pf: IVAR_MISC 0x00000000: no vector"));
    peer_set_config(peer, 0x72, 2, 0);
}

/* Checks which absent registers the counts name. A register that the server answers isn't among them. */
static void counts_of_absent(struct peer *peer)
{
    CHECK(!says("counts", "not modelled:"));
    peer_read(peer, 0x05088);
    peer_write(peer, 0x05088, 0);
    peer_read(peer, 0x05088);
    CHECK(says("counts", "not modelled: 3 accesses by the host: VLNCTRL 3 (--strays=FILE lists each)"));
    peer_read(peer, 0x1FFF0);
    CHECK(says("counts", "not modelled: 4 accesses by the host: VLNCTRL 3; at unknown addresses 1"));
    peer_write(peer, 0x10160, 1);
    CHECK(peer_read(peer, 0x10160) == 1 && peer_read(peer, 0x10140) == 0 && says("counts", "SW_FW_SYNC 1\n"));
    CHECK(says("counts", "not modelled: 4 accesses by the host: VLNCTRL 3; at unknown addresses 1"));
}

/* Checks that a frame waits before each of its steps until that step is requested. */
static void held(const char *path, const char *control_path)
{
    struct peer peer;
    connect_control(control_path);
    hostile_requests();
    open_started(&peer, path);
    CHECK(says("hold", "ok") && says("due", "ok") && !says("due", "tx 0"));
    make_arp(ram + FRAME);
    put64(TX_RING, RAM + FRAME);
    put64(TX_RING + 8, NIC_TXD_DATA | NIC_TXD_DTALEN_IS(ARP_BYTES) | NIC_TXD_EOP | NIC_TXD_RS);
    peer_write(&peer, NIC_TDT(0), 1);
    CHECK(peer_read(&peer, NIC_TDH(0)) == 0 && says("due", "tx 0: head 0, tail 1"));
    CHECK(says("why", "tx 0: TDH[0] 0, TDT[0] 1: nothing blocks it") && !says("why", "lent"));
    CHECK(says("tx 0", "1 descriptors"));
    CHECK(get64(TX_RING + 8) & NIC_TXWB_DD && says("peek 06010", "00000001"));
    peer_read(&peer, NIC_STATUS); /* the reply to the control request precedes the reply to this read */
    CHECK(!(get64(RX_RING + 8) & NIC_RXWB_DD) && says("due", "rx: at most 1") && says("rx", "1 descriptors"));
    CHECK(get64(RX_RING + 8) & NIC_RXWB_DD && says("link down", "done") && peer_read(&peer, NIC_LINKS) == 0);
    peer_write(&peer, NIC_TXDCTL(1), NIC_TXDCTL_ENABLE);
    CHECK(!(peer_read(&peer, NIC_TXDCTL(1)) & NIC_TXDCTL_ENABLE) && says("qstep tx 1", "done"));
    CHECK(says("qstep tx 1", "idle") && peer_read(&peer, NIC_TXDCTL(1)) & NIC_TXDCTL_ENABLE);
    peer_write(&peer, NIC_TXDCTL(2), NIC_TXDCTL_ENABLE);
    peer_write(&peer, NIC_EERD, NIC_EERD_START);
    CHECK(!(peer_read(&peer, NIC_EERD) & NIC_EERD_DONE) && says("due", "eestep: EERD 00000001") &&
          says("why", "eestep"));
    CHECK(says("eestep", "done") && says("eestep", "idle") && !says("due", "eestep"));
    CHECK(says("link up", "done") && says("go", "ok") && peer_read(&peer, NIC_TXDCTL(2)) & NIC_TXDCTL_ENABLE);
    /* unmapped memory can't be reached: the access is a fault, and doesn't get the old contents */
    CHECK(peer_unmap(&peer, RAM, RAM_BYTES) == 0);
    peer_write(&peer, NIC_TDT(0), 2);
    until(&peer, NIC_TXDCTL(0), NIC_TXDCTL_ENABLE, 0);
    CHECK(says("counts", "not lent 1"));
    why_of_line(&peer);
    counts_of_absent(&peer);
    close(control);
    peer_close(&peer);
}

/* ---- snapshots, and accesses at which the device is held ---- */

static void hostile_snapshots(void)
{
    char words[64];
    CHECK(says("snapshot a b", "error: ") && says("snapshot a/b", "error: ") && says("restore", "error: "));
    CHECK(says("snapshot 12345678901234567890123456789012", "error: ") && says("restore nobody", "error: "));
    for (int i = 0; i < 15; i++) {
        snprintf(words, sizeof words, "snapshot s%d", i);
        CHECK(says(words, "ok"));
    }
    CHECK(says("snapshot more", "error: there are already 16") && says("snapshot s3", "ok") && says("snapshot", "s14"));
}

/* Checks that `restore` restores registers, the rings' locations and waiting frames, but not the guest's memory. */
static void snapshots(struct peer *it)
{
    give_frame(it, 0);
    wait_for(TX_RING + 8, NIC_TXWB_DD);
    wait_for(RX_RING + 8, NIC_RXWB_DD);
    CHECK(says("hold", "ok") && says("frames 3 60", "ok") && comes_to_say("due", "rx: at most 3") &&
          says("snapshot one", "ok"));
    hostile_snapshots();
    CHECK(says("rx", "3 descriptors") && says("go", "ok"));
    give_frame(it, 1);
    wait_for(TX_RING + 24, NIC_TXWB_DD);
    peer_write(it, NIC_CTRL, NIC_CTRL_RST);
    CHECK(peer_read(it, NIC_RDBAL(0)) == 0 && says("restore one", "ok") && peer_read(it, NIC_TDH(0)) == 1);
    CHECK(peer_read(it, NIC_RDBAL(0)) == RAM + RX_RING && peer_read(it, NIC_TDBAL(0)) == RAM + TX_RING);
    CHECK(get64(TX_RING + 24) & NIC_TXWB_DD); /* the guest's memory hasn't changed */
    give_frame(it, 1);
    wait_for(TX_RING + 24, NIC_TXWB_DD);
    until(it, NIC_RDH(0), UINT32_MAX, 5); /* five frames: a reply, the three restored ones, a reply */
    CHECK(says("hold", "ok") && says("restore one", "ok") && says("due", "rx: at most 3") && says("rx", "3 descr"));
    CHECK(says("go", "ok"));
}

static void hostile_places(void)
{
    static const char *const places[] = {"w TDT[128]",  "x TDT[0]",  "w",           "w NOPE",       "w TDT[0",
                                         "w 0x20000",   "w 0x00801", "vw 2 VFCTRL", "vw VFCTRL",    "vw 0 VFTDT[8]",
                                         "vr 0 TDT[0]", "r EICR[1]", "w TDT[0]]",   "vw 0 0x04000", "offs"};
    char words[64];
    for (size_t i = 0; i < sizeof places / sizeof *places; i++) {
        snprintf(words, sizeof words, "hold at %s", places[i]);
        CHECK(says(words, "error: "));
    }
    CHECK(says("hold on", "error: ") && says("hold at ", "ok") && !says("hold at", "at "));
    for (int i = 0; i < 8; i++)
        CHECK(says("hold at r 0x1fffc", "ok"));
    CHECK(says("hold at r EICR", "error: there are already 8") && says("hold at off", "ok"));
}

static void held_at(struct peer *it, const char *function_path)
{
    struct peer other;
    hostile_places();
    give_frame(it, 1);
    wait_for(TX_RING + 24, NIC_TXWB_DD);
    CHECK(says("hold at w TDT[0]", "ok") && says("hold at r RETA[3]", "ok") && says("hold at vr 1 VFSTATUS", "ok"));
    give_frame(it, 2);
    CHECK(peer_read(it, NIC_TDH(0)) == 2 && says("due", "held at w TDT[0] 00000003\ntx 0: head 2, tail 3"));
    CHECK(says("hold at", "at w TDT[0], 1 times\nat r RETA[3], 0 times\nat vr 1 VFSTATUS, 0 times\nok"));
    CHECK(!(get64(TX_RING + 40) & NIC_TXWB_DD) && says("go", "ok"));
    wait_for(TX_RING + 40, NIC_TXWB_DD);
    peer_read(it, NIC_RETA(3));
    CHECK(says("go", "held at r RETA[3]\nok"));
    peer_open(&other, function_path);
    CHECK(peer_version(&other) == 0);
    peer_read(&other, 8);
    CHECK(says("due", "held at vr 1 VFSTATUS") && says("hold at off", "ok") && says("go", "ok"));
    peer_close(&other);
    give_frame(it, 3);
    wait_for(TX_RING + 56, NIC_TXWB_DD);
}

/* Checks that with a seed, resets take time, and that writes during a reset are lost and counted. If the server gets
   the CPU late, the reset may already be over, so this retries until a write falls into a reset. */
static void seeded_resets(struct peer *it)
{
    bool is_late = false, loses = false;
    for (unsigned int i = 0; i < RESETS || (!is_late && i < TRIES); i++) {
        peer_write(it, NIC_CTRL, NIC_CTRL_RST);
        is_late |= (peer_read(it, NIC_CTRL) & NIC_CTRL_RST) != 0;
        until(it, NIC_CTRL, NIC_CTRL_RST, 0);
    }
    CHECK(is_late && says("counts", "writes lost in resets 0"));
    for (unsigned int i = 0; i < RESETS || (!loses && i < TRIES); i++) {
        peer_write(it, NIC_CTRL, NIC_CTRL_RST);
        peer_write(it, NIC_EITR(1), 8);
        until(it, NIC_CTRL, NIC_CTRL_RST, 0);
        loses |= i >= RESETS - 1 && !says("counts", "writes lost in resets 0");
    }
    CHECK(loses);
}

static void seeded(struct peer *it)
{
    CHECK(says("seed", "error: ") && says("seed -1", "error: ") && says("seed 1x", "error: ") && says("seed 7", "ok"));
    seeded_resets(it);
    CHECK(says("seed off", "ok"));
    peer_write(it, NIC_CTRL, NIC_CTRL_RST);
    CHECK(!(peer_read(it, NIC_CTRL) & NIC_CTRL_RST));
    peer_write(it, NIC_TDLEN(3), SLOTS * 16);
    peer_write(it, NIC_TDT(3), 0);
    CHECK(peer_read(it, NIC_TDT(3)) == 0 && says("counts", "rings that are off 0"));
    peer_write(it, NIC_TDT(3), 2);
    CHECK(peer_read(it, NIC_TDT(3)) == 2 && says("counts", "rings that are off 1"));
}

static void kept(const char *path, const char *function_path, const char *control_path)
{
    struct peer peer;
    connect_control(control_path);
    open_started(&peer, path);
    snapshots(&peer);
    held_at(&peer, function_path);
    seeded(&peer);
    peer_close(&peer);
    close(control);
}

static void late(const char *const *words)
{
    struct peer peer;
    int event = eventfd(0, EFD_CLOEXEC | EFD_NONBLOCK);
    const char *path = server_start(words);
    peer_open(&peer, path);
    CHECK(peer_version(&peer) == 0 && peer_map(&peer, RAM, RAM_BYTES, 0, 3, ram_file) == 0);
    CHECK(peer_ask(&peer, VFU_DEVICE_RESET, NULL, 0, NULL, 0, NULL, 0) == 0);
    drive(&peer, event);
    peer_close(&peer);
    close(event);
    server_stop();
}

/* ---- hostile clients ---- */

static void in_pieces(const char *path)
{
    struct peer peer;
    struct {
        struct vfu_header head;
        struct vfu_access access;
    } message = {{7, VFU_REGION_READ, sizeof message, 0, 0}, {NIC_STATUS, 0, 4}};
    uint8_t reply[64];
    peer_open(&peer, path);
    CHECK(peer_version(&peer) == 0);
    for (size_t i = 0; i < sizeof message; i++) {
        CHECK(send(peer.file, (uint8_t *)&message + i, 1, 0) == 1);
        usleep(200);
    }
    CHECK(peer_reply(&peer, 7, reply, sizeof reply) == 0);
    /* files with the first part of their message, and another message after the last part */
    struct {
        struct vfu_header head;
        struct vfu_dma_map map;
    } map = {{8, VFU_DMA_MAP, sizeof map, 0, 0}, {sizeof map.map, 3, 0, RAM, RAM_BYTES}};
    struct iovec part = {&map, 20};
    union {
        struct cmsghdr aligned;
        char room[CMSG_SPACE(sizeof(int))];
    } control = {{0}};
    struct msghdr head = {
        .msg_iov = &part, .msg_iovlen = 1, .msg_control = control.room, .msg_controllen = sizeof control.room};
    *CMSG_FIRSTHDR(&head) = (struct cmsghdr){CMSG_LEN(sizeof(int)), SOL_SOCKET, SCM_RIGHTS};
    memcpy(CMSG_DATA(CMSG_FIRSTHDR(&head)), &ram_file, sizeof ram_file);
    CHECK(sendmsg(peer.file, &head, 0) == 20);
    usleep(20000);
    CHECK(send(peer.file, (uint8_t *)&map + 20, sizeof map - 20, 0) == (ssize_t)sizeof map - 20);
    CHECK(send(peer.file, &message, sizeof message, 0) == (ssize_t)sizeof message);
    CHECK(peer_reply(&peer, 8, reply, sizeof reply) == 0 && peer_reply(&peer, 7, reply, sizeof reply) == 0);
    peer_close(&peer);
}

/* Requests 40 MB and doesn't read: the server keeps the remaining replies, serves another client, and continues when
   this client reads. */
static void without_reading(const char *path, const char *other_path)
{
    struct peer peer, other;
    struct vfu_access access = {0, VFU_CONFIG_REGION, 4096};
    uint8_t reply[64];
    unsigned int sent = 0;
    peer_open(&peer, path);
    CHECK(peer_version(&peer) == 0);
    struct {
        struct vfu_header head;
        struct vfu_access access;
    } message = {{0, VFU_REGION_READ, sizeof message, 0, 0}, access};
    while (sent < 10000 && send(peer.file, &message, sizeof message, MSG_DONTWAIT) == (ssize_t)sizeof message) {
        message.head.id++;
        sent++;
    }
    CHECK(sent > 100 && sent < 10000);
    peer_open(&other, other_path);
    CHECK(peer_version(&other) == 0 && peer_config(&other, 0, 4) == 0x10ED8086);
    peer_close(&other);
    for (unsigned int i = 0; i < sent; i++)
        CHECK(peer_reply(&peer, (uint16_t)i, reply, sizeof reply) == 0);
    peer_close(&peer);
}

static bool is_hung_up(const struct peer *it)
{
    struct pollfd poll_for = {it->file, POLLIN, 0};
    uint8_t byte;
    return poll(&poll_for, 1, ANSWER_MS) == 1 && recv(it->file, &byte, 1, 0) <= 0;
}

static void what_is_no_message(const char *path)
{
    static const struct vfu_header heads[] = {
        {1, VFU_REGION_READ, 15, 0, 0}, {1, VFU_REGION_READ, 0, 0, 0},          {1, 1, VFU_MESSAGE_MOST + 1, 0, 0},
        {1, 1, UINT32_MAX, 0, 0},       {1, VFU_REGION_READ, 16, VFU_REPLY, 0},
    };
    struct peer peer, second;
    for (size_t i = 0; i < sizeof heads / sizeof *heads; i++) {
        peer_open(&peer, path);
        CHECK(peer_version(&peer) == 0);
        CHECK(send(peer.file, &heads[i], sizeof *heads, 0) == (ssize_t)sizeof *heads && is_hung_up(&peer));
        peer_close(&peer);
    }
    peer_open(&peer, path);
    CHECK(peer_version(&peer) == 0);
    peer_open(&second, path);
    CHECK(is_hung_up(&second)); /* there already is a client */
    peer_close(&second);
    CHECK(peer_config(&peer, 0, 2) == 0x8086);
    peer_close(&peer);
}

/* Truncates the file with the device's rings and buffers without the server's knowledge. */
static void with_a_cut_file(const char *path)
{
    struct peer peer;
    peer_open(&peer, path);
    CHECK(peer_version(&peer) == 0 && peer_map(&peer, RAM, RAM_BYTES, 0, 3, ram_file) == 0);
    start_queues(&peer);
    make_arp(ram + FRAME);
    put64(TX_RING, RAM + FRAME);
    put64(TX_RING + 8, NIC_TXD_DATA | NIC_TXD_DTALEN_IS(ARP_BYTES) | NIC_TXD_EOP | NIC_TXD_RS);
    CHECK(ftruncate(ram_file, 0) == 0);
    peer_write(&peer, NIC_TDT(0), 1);
    peer_read(&peer, NIC_TDH(0));
    CHECK(peer_config(&peer, 0, 2) == 0x8086);
    peer_close(&peer);
}

/* Records a driver's run, for recorded.py. */
static void recorded(const char *file)
{
    static char word[256];
    static const char *const words[] = {word, NULL};
    snprintf(word, sizeof word, "--record=%s", file);
    late(words);
}

int main(int count, char **own_words)
{
    static char control_path[100], control_word[140];
    static const char *const words[] = {"--functions=2", "--iommu-check", control_word, NULL};
    static const char *const seeds[][2] = {{"--seed=1", NULL}, {"--seed=2", NULL}, {"--seed=3", NULL}};
    char function_path[120];
    make_ram();
    for (size_t i = 0; i < sizeof seeds / sizeof *seeds; i++)
        late(seeds[i]);
    if (count > 1)
        recorded(own_words[1]);
    snprintf(control_path, sizeof control_path, "/tmp/nic82599-test.%ld.control", (long)getpid());
    snprintf(control_word, sizeof control_word, "--control=%s", control_path);
    const char *path = server_start(words);
    snprintf(function_path, sizeof function_path, "%s.vf1", path);
    as_qemu_does(path);
    as_qemu_does(path); /* the next client finds the card as the first client did */
    held(path, control_path);
    kept(path, function_path, control_path);
    in_pieces(path);
    without_reading(path, function_path);
    what_is_no_message(path);
    with_a_cut_file(path);
    server_stop();
    CHECK(access(path, F_OK) != 0);
    printf("client: passed\n");
    return 0;
}
