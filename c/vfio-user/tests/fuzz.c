/* Sends random messages to a server, shaped as in the protocol and some of them corrupted, from three clients at the
   same time, while random input also arrives from the wire's other end and at the control socket. The server runs with
   the sanitizers. At the end the server must still run, with no more open files than at the beginning.

     fuzz SEED MESSAGES FOLDER */
#define _GNU_SOURCE
#include <dirent.h>
#include <errno.h>
#include <string.h>
#include <sys/eventfd.h>
#include <sys/mman.h>
#include <sys/socket.h>
#include <unistd.h>

#include "../../tests/check.h"
#include "nic82599.h"
#include "peer/peer.h"

#define SESSION_MOST 300 /* messages from one client */
#define HOST_MOST 60     /* messages from the PF's session, which brings its queues up when it connects */
#define REST_TRIES 30000 /* tries of at least 10 ms each, for the server to close files */
#define FILES 8
#define FILE_BYTES (64u * 4096)

static int memory_file;
static uint8_t *memory;
static uint8_t body[VFU_MESSAGE_MOST];
static size_t length;
static int files[FILES];
static unsigned int file_count;

static bool one_in(unsigned int many)
{
    return chance() % many == 0;
}

static uint64_t number(void)
{
    static const uint64_t numbers[] = {
        0,
        1,
        2,
        3,
        4,
        5,
        7,
        8,
        9,
        16,
        63,
        64,
        65,
        128,
        4095,
        4096,
        4097,
        0x1FFFC,
        0x20000,
        1u << 31,
        UINT32_MAX,
        UINT64_MAX,
        UINT64_MAX - 3,
        UINT64_MAX - 4095,
        UINT64_C(1) << 63,
        FILE_BYTES,
    };
    return one_in(4) ? chance() << 20 ^ chance() : numbers[chance() % (sizeof numbers / sizeof *numbers)];
}

static void add(const void *bytes, size_t count)
{
    memcpy(body + length, bytes, count);
    length += count;
}

static void add_file(void)
{
    switch (chance() % 6) {
    case 0: files[file_count++] = memfd_create("fuzz", MFD_CLOEXEC); break;
    case 1:
    case 2: files[file_count++] = eventfd(0, EFD_CLOEXEC); break;
    case 3: files[file_count++] = dup(0); break;
    default: files[file_count++] = dup(memory_file); break;
    }
}

static void make_map(void)
{
    struct vfu_dma_map map = {sizeof map, (uint32_t)(chance() % 8), 0, chance() % 16 * 4096, 4096 << chance() % 6};
    if (one_in(4))
        map = (struct vfu_dma_map){(uint32_t)number(), (uint32_t)number(), number(), number(), number()};
    add(&map, sizeof map);
    if (!one_in(5))
        add_file();
}

static void make_unmap(void)
{
    struct vfu_dma_unmap map = {sizeof map, one_in(20) ? VFU_UNMAP_ALL : 0, chance() % 16 * 4096, 4096 << chance() % 8};
    if (one_in(4))
        map = (struct vfu_dma_unmap){24, (uint32_t)number(), number(), number()};
    add(&map, sizeof map);
}

static void make_irqs(void)
{
    struct vfu_irq_set set = {sizeof set, VFU_SET_TRIGGER | 1u << chance() % 3, VFU_MSIX, (uint32_t)(chance() % 64),
                              (uint32_t)(chance() % 5)};
    if (one_in(4))
        set = (struct vfu_irq_set){20, (uint32_t)number(), (uint32_t)number(), (uint32_t)number(), (uint32_t)number()};
    add(&set, sizeof set);
    for (unsigned int i = (unsigned int)(chance() % 5); i; i--)
        add_file();
}

/* Chooses a register that drivers write, such as a base, a length, an enable or a tail, and a value that is useful for
   one of these registers. */
static void make_register(struct vfu_access *access, uint32_t *word)
{
    const uint32_t registers[] = {
        NIC_RDBAL(0), NIC_RDLEN(0),  NIC_RDT(0),    NIC_RXDCTL(0), NIC_SRRCTL(0), NIC_TDBAL(0), NIC_TDLEN(0),
        NIC_TDT(0),   NIC_TXDCTL(0), NIC_TDWBAL(0), NIC_RXCTRL,    NIC_DMATXCTL,  NIC_EIMS,     NIC_EICS,
        NIC_FCTRL,    NIC_CTRL,      NIC_GCR_EXT,   NIC_HLREG0,    NIC_TDBAH(0),  NIC_VFCTRL,   NIC_RDH(0),
    };
    static const uint32_t words[] = {
        0x80, 0x1000, 0x2000, 0x80000, 0x100000, 1u << 25, 0x02000402, 1, 2, 5, 7, 63, 0x400, UINT32_MAX, 0x04000008,
    };
    access->region = 0;
    access->count = 4;
    access->offset = registers[chance() % (sizeof registers / sizeof *registers)] + 0x40 * (chance() % 3);
    *word = words[chance() % (sizeof words / sizeof *words)];
}

static void make_access(bool write)
{
    static const uint32_t regions[] = {0, 0, 0, 4, 7, 7, 3};
    struct vfu_access access = {chance() % 0x8000 * 4, regions[chance() % 7], 4};
    uint32_t word = (uint32_t)chance();
    if (access.region == VFU_CONFIG_REGION)
        access.offset %= 4096;
    if (one_in(2))
        make_register(&access, &word);
    if (one_in(6))
        access = (struct vfu_access){number(), (uint32_t)number(), (uint32_t)number()};
    add(&access, sizeof access);
    if (write) {
        add(&word, sizeof word);
        for (uint32_t i = 4; i < access.count && i < 4096 && !one_in(2000); i++)
            body[length++] = (uint8_t)chance();
    }
}

static void make_writes(void)
{
    struct vfu_writes writes = {chance() % 6};
    uint64_t count = writes.count;
    if (one_in(4))
        writes.count = number();
    add(&writes, sizeof writes);
    for (uint64_t i = 0; i < count; i++) {
        struct vfu_access access = {chance() % 0x8000 * 4, 0, 4};
        struct vfu_write write = {0};
        uint32_t word = (uint32_t)chance();
        make_register(&access, &word);
        write = (struct vfu_write){
            access.offset, one_in(6) ? (uint32_t)number() : 0, one_in(6) ? (uint32_t)number() : 4, {0}};
        memcpy(write.data, &word, sizeof word);
        add(&write, sizeof write);
    }
}

static uint16_t make_message(void)
{
    static const uint16_t often[] = {VFU_DMA_MAP,      VFU_DMA_UNMAP,    VFU_DEVICE_SET_IRQS,    VFU_REGION_READ,
                                     VFU_REGION_WRITE, VFU_REGION_WRITE, VFU_REGION_WRITE_MULTI, VFU_REGION_WRITE};
    uint16_t command = one_in(8) ? (uint16_t)(chance() % 20) : often[chance() % 8];
    length = file_count = 0;
    switch (command) {
    case VFU_VERSION: add("\0\0\0\0{}", 7); break;
    case VFU_DMA_MAP: make_map(); break;
    case VFU_DMA_UNMAP: make_unmap(); break;
    case VFU_DEVICE_SET_IRQS: make_irqs(); break;
    case VFU_REGION_READ: make_access(false); break;
    case VFU_REGION_WRITE: make_access(true); break;
    case VFU_REGION_WRITE_MULTI: make_writes(); break;
    default:
        for (size_t count = chance() % 48; length < count;)
            body[length++] = (uint8_t)number();
    }
    if (one_in(25))
        length = chance() % (length + 1);
    if (one_in(50))
        add_file();
    return command;
}

/* Writes random descriptors and frames to the addresses used by the registers above. */
static void spoil_memory(void)
{
    for (unsigned int i = 0; i < 64; i++) {
        uint64_t value = one_in(3) ? number() : chance() << 24 ^ chance();
        if (one_in(2))
            value = NIC_TXD_DATA | NIC_TXD_EOP | NIC_TXD_RS | chance() % 2048;
        memcpy(memory + chance() % (FILE_BYTES / 8) * 8, &value, sizeof value);
    }
}

/* Reads what has arrived. Returns false if the server has hung up. */
static bool drain(struct peer *it)
{
    static uint8_t bytes[65536];
    ssize_t got;
    while ((got = recv(it->file, bytes, sizeof bytes, MSG_DONTWAIT)) > 0)
        ;
    return got < 0 && (errno == EAGAIN || errno == EWOULDBLOCK);
}

/* Sets up valid memory and a queue each way, so that the random messages reach a working card. */
static void bring_up(struct peer *it)
{
    CHECK(peer_unmap(it, 0, UINT64_C(1) << 40) == 0 && peer_map(it, 0, FILE_BYTES, 0, 3, memory_file) == 0);
    for (uint32_t slot = 0; slot < 64; slot++) {
        const uint64_t halves[] = {0x8000 + 2048 * (slot % 16), 0, 0x18000 + 64 * slot,
                                   NIC_TXD_DATA | NIC_TXD_EOP | NIC_TXD_RS | NIC_TXD_DTALEN_IS(60 + slot)};
        memcpy(memory + 0x1000 + 16 * slot, halves, 16);
        memcpy(memory + 0x2000 + 16 * slot, halves + 2, 16);
    }
    peer_write(it, NIC_CTRL, NIC_CTRL_RST);
    peer_write(it, NIC_RDBAL(0), 0x1000);
    peer_write(it, NIC_RDLEN(0), 1024);
    peer_write(it, NIC_TDBAL(0), 0x2000);
    peer_write(it, NIC_TDLEN(0), 1024);
    peer_write(it, NIC_SRRCTL(0), one_in(3) ? 2 : NIC_SRRCTL_DESCTYPE_IS(1) | 2);
    peer_write(it, NIC_FCTRL, NIC_FCTRL_UPE | NIC_FCTRL_MPE);
    peer_write(it, NIC_RXCTRL, NIC_RXCTRL_RXEN);
    peer_write(it, NIC_DMATXCTL, NIC_DMATXCTL_TE);
    peer_write(it, NIC_RXDCTL(0), NIC_RXDCTL_ENABLE);
    peer_write(it, NIC_TXDCTL(0), NIC_TXDCTL_ENABLE);
    peer_write(it, NIC_IVAR(0), 0x8180);
    peer_write(it, NIC_EIMS, 3);
    peer_write(it, NIC_RDT(0), 63);
    peer_write(it, NIC_TDT(0), 1 + (uint32_t)(chance() % 20));
}

/* ---- clients, all at the same time ---- */

#define CLIENTS 3 /* the PF's guest, a virtual function's guest, and the virtual function's shadow in the PF's guest */

struct client {
    struct peer peer;
    char path[120];
    bool is_open;
    unsigned int left; /* messages until it leaves */
};

static struct client clients[CLIENTS];
static unsigned long sent, came;

static void come(struct client *it)
{
    bool has_version = !one_in(20);
    peer_open(&it->peer, it->path);
    CHECK(!has_version || peer_version(&it->peer) == 0);
    if (has_version && it == clients && !one_in(3))
        bring_up(&it->peer);
    it->is_open = true;
    it->left = 1 + (unsigned int)(chance() % (it == clients ? HOST_MOST : SESSION_MOST));
    came++;
}

/* Disconnects after sending; the server must still serve the messages sent before. */
static void leave(struct client *it)
{
    shutdown(it->peer.file, SHUT_WR);
    while (recv(it->peer.file, body, sizeof body, 0) > 0)
        ;
    peer_close(&it->peer);
    it->is_open = false;
}

static void one_message(struct client *it)
{
    uint16_t command = make_message();
    bool is_open = peer_try(&it->peer, command, one_in(3) ? VFU_NO_REPLY : (uint32_t)one_in(2000), body, length, files,
                            file_count, one_in(2000) ? (uint32_t)number() : 0);
    for (unsigned int i = 0; i < file_count; i++)
        close(files[i]);
    sent++;
    if (one_in(10))
        spoil_memory();
    if (one_in(500))
        CHECK(ftruncate(memory_file, one_in(2) ? 4096 : 0) == 0 && ftruncate(memory_file, FILE_BYTES) == 0);
    is_open = is_open && drain(&it->peer);
    if (!is_open || --it->left == 0)
        leave(it);
}

/* ---- the wire's other end, and the control socket ---- */

static struct peer wire = {-1, 0}, control = {-1, 0};
static char wire_path[120], control_path[120];

/* Sends as much as fits now; a frame of which only a part fits arrives corrupted. */
static void send_some(struct peer *it, const char *path, const uint8_t *bytes, size_t count)
{
    if (it->file < 0)
        it->file = peer_stream(path);
    ssize_t went = send(it->file, bytes, count, MSG_DONTWAIT | MSG_NOSIGNAL);
    if ((went >= 0 || errno == EAGAIN || errno == EWOULDBLOCK) && drain(it))
        return;
    close(it->file);
    it->file = -1;
}

static void wire_sends(void)
{
    static uint8_t bytes[4 + 65536 + 8];
    uint32_t count = (uint32_t)(one_in(30) ? chance() % 65540 : chance() % 1600);
    uint32_t claimed = one_in(200) ? (uint32_t)number() : count;
    for (unsigned int i = 0; i < 4; i++)
        bytes[i] = (uint8_t)(claimed >> 8 * (3 - i));
    memset(bytes + 4, one_in(2) ? 0xFF : 0x02, 12);
    for (unsigned int i = 0; i < 16; i++)
        bytes[16 + chance() % 200] = (uint8_t)chance();
    send_some(&wire, wire_path, bytes, 4 + count);
}

static void ask(void)
{
    static const char *const requests[] = {
        "counts",     "due",         "hold",           "go",
        "go",         "go",          "seed 5",         "seed off",
        "snapshot a", "restore a",   "tx 0",           "rx",
        "int",        "qstep tx 0",  "qstep rx 0",     "eestep",
        "link down",  "link up",     "link up",        "frames 50 200",
        "came",       "hold at off", "hold at r EICR", "expect 100 200",
        "peek 00800", "turn 1 1",    "tx 999999",      "\377\1\2",
    };
    const char *request = one_in(500) ? "why" : requests[chance() % (sizeof requests / sizeof *requests)];
    uint8_t line[64];
    size_t count = strlen(request);
    memcpy(line, request, count);
    if (one_in(30))
        line[chance() % (count + 1)] = (uint8_t)chance();
    if (!one_in(50))
        line[count++] = '\n';
    send_some(&control, control_path, line, count);
}

static void turn(void)
{
    struct client *client = &clients[chance() % CLIENTS];
    if (client->is_open)
        one_message(client);
    else
        come(client);
    if (one_in(5))
        wire_sends();
    if (one_in(30))
        ask();
}

/* ---- the server's open files ---- */

#define OPEN_MOST 1024
#define KIND_BYTES 64

/* Names of the open files, sorted: a file's path, but only the kind of a socket or a pipe. */
struct open_files {
    unsigned int count;
    char kinds[OPEN_MOST][KIND_BYTES];
};

static int compare_kinds(const void *one, const void *other)
{
    return strcmp(one, other);
}

static bool are_same(const struct open_files *one, const struct open_files *other)
{
    unsigned int i = 0;
    while (i < one->count && i < other->count && compare_kinds(one->kinds[i], other->kinds[i]) == 0)
        i++;
    return i == one->count && i == other->count;
}

static void add_kind(struct open_files *it, const char *path)
{
    char *kind = it->kinds[it->count];
    ssize_t length = readlink(path, kind, KIND_BYTES - 1);
    if (length < 0) /* closed meanwhile */
        return;
    kind[length] = 0;
    if (kind[0] != '/' && strncmp(kind, "anon_inode:", 11) != 0)
        kind[strcspn(kind, ":")] = 0;
    it->count++;
}

static void read_open_files(struct open_files *it)
{
    char folder[64], path[sizeof folder + 256];
    snprintf(folder, sizeof folder, "/proc/%ld/fd", (long)server_process());
    DIR *entries = opendir(folder);
    CHECK(entries != NULL);
    it->count = 0;
    for (const struct dirent *entry = readdir(entries); entry; entry = readdir(entries)) {
        if (entry->d_name[0] == '.')
            continue;
        CHECK(it->count < OPEN_MOST);
        snprintf(path, sizeof path, "%s/%s", folder, entry->d_name);
        add_kind(it, path);
    }
    closedir(entries);
    qsort(it->kinds, it->count, KIND_BYTES, compare_kinds);
}

static void print_open_files(const char *when, const struct open_files *it)
{
    fprintf(stderr, "%u open files of the server %s:", it->count, when);
    for (unsigned int i = 0; i < it->count; i++)
        fprintf(stderr, " %s", it->kinds[i]);
    fputc('\n', stderr);
}

static void reopen(struct peer *it, const char *path)
{
    if (it->file >= 0)
        close(it->file);
    it->file = peer_stream(path);
}

/* Opens new connections for a client, a wire and a control socket, because the server may hang up late on random
   messages. The server answers after it has accepted all three (the wire only if the link is up). */
static void reconnect(void)
{
    struct peer *peer = &clients[0].peer;
    reopen(&wire, wire_path);
    reopen(&control, control_path);
    CHECK(strstr(peer_request(control.file, "go"), "ok") && strstr(peer_request(control.file, "link up"), "ok"));
    peer_open(peer, clients[0].path);
    CHECK(peer_version(peer) == 0);
}

/* Checks that the server has the same files open as at the beginning. Waits, because the server closes files in
   separate threads. Leaked files stay open. */
static void check_open_files(const struct open_files *first)
{
    static struct open_files now;
    for (int i = 0; i < REST_TRIES; i++) {
        read_open_files(&now);
        if (are_same(&now, first))
            return;
        usleep(10000);
    }
    print_open_files("at the beginning", first);
    print_open_files("at the end", &now);
    CHECK(!"the server's open files differ from those at the beginning");
}

/* ---- the run ---- */

static void begin(const char *folder)
{
    static char wire_word[140], control_word[140];
    static const char *const words[] = {"--functions=1", "--hairpin", wire_word, control_word, NULL};
    static const char *const endings[CLIENTS] = {"", ".vf0", ".shadow0"};
    snprintf(wire_path, sizeof wire_path, "%s/fuzz.%ld.wire", folder, (long)getpid());
    snprintf(control_path, sizeof control_path, "%s/fuzz.%ld.control", folder, (long)getpid());
    snprintf(wire_word, sizeof wire_word, "--wire=listen:%s", wire_path);
    snprintf(control_word, sizeof control_word, "--control=%s", control_path);
    memory_file = memfd_create("memory", MFD_CLOEXEC);
    CHECK(ftruncate(memory_file, FILE_BYTES) == 0);
    memory = mmap(NULL, FILE_BYTES, PROT_READ | PROT_WRITE, MAP_SHARED, memory_file, 0);
    CHECK(memory != MAP_FAILED);
    const char *path = server_start(words);
    for (unsigned int i = 0; i < CLIENTS; i++)
        snprintf(clients[i].path, sizeof clients[i].path, "%s%s", path, endings[i]);
}

int main(int count, char **words)
{
    static struct open_files first;
    unsigned long most = count > 2 ? strtoul(words[2], NULL, 10) : 20000;
    chance_state = count > 1 ? strtoul(words[1], NULL, 10) + 1 : 1;
    begin(count > 3 ? words[3] : "/tmp");
    reconnect();
    read_open_files(&first);
    peer_close(&clients[0].peer);
    while (sent < most)
        turn();
    for (unsigned int i = 0; i < CLIENTS; i++)
        if (clients[i].is_open)
            leave(&clients[i]);
    reconnect();
    check_open_files(&first);
    peer_close(&clients[0].peer);
    server_stop();
    printf("fuzz: %lu messages from %lu clients\n", sent, came);
    return 0;
}
