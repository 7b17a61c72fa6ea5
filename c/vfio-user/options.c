#include "options.h"

#include <errno.h>
#include <stdlib.h>
#include <string.h>

#include "nic82599.h"

#define NAME "nic82599-vfio-user"
#define PHYSICAL_DEVICE 0x10F7u
#define RESPONDER 0x0A000001u  /* 10.0.0.1 */
#define MEMORY_MOST (1u << 20) /* GiB */

static const char help[] =
    "Usage: " NAME " --socket-path=PATH [OPTION]..\n"
    "       " NAME " --fd=N [OPTION]..\n"
    "       " NAME " --ask=PATH [REQUEST]..\n"
    "\n"
    "An Intel 82599 for a virtual machine, over vfio-user (QEMU 10.1 and later: -device vfio-user-pci). The guest's\n"
    "memory must be shared: -object memory-backend-memfd,id=ram,size=SIZE,share=on -machine memory-backend=ram.\n"
    "\n"
    "  --socket-path=PATH     listen on this socket for the physical function's client\n"
    "  --fd=N                 use file descriptor N, a connected or listening socket\n"
    "  --functions=N          add 0 to 7 virtual functions: PATH.vf0 .. for other guests, PATH.shadow0 .. for the "
    "host\n"
    "  --mac=ADDRESS          set the card's hardware address (default 02:00:00:00:82:99)\n"
    "  --device=ID            set the card's device ID, in hex (default 10f7)\n"
    "  --interrupts=KIND      let the card support intx, msi (and INTx) or msix (and MSI and INTx; default)\n"
    "  --wire=none            connect nothing to the wire\n"
    "  --wire=respond[:IPV4]  answer ARP and ping for this address (10.0.0.1): the default\n"
    "  --wire=stream:PATH     connect to this socket, like QEMU's -netdev stream\n"
    "  --wire=listen:PATH     listen on this socket, like -netdev stream,server=on\n"
    "  --wire=dgram:PATH,PEER exchange UNIX datagrams with PEER, like QEMU's -netdev dgram\n"
    "  --hairpin              also return the frames that the card sends, for traffic between functions\n"
    "  --capture=FILE         write all traffic to a pcapng file\n"
    "  --play=FILE            send the frames in a pcap or pcapng file to the card when it can receive\n"
    "  --without=NAME         turn off one of the server's additions to the bench: offloads, legacy, SWSM, ANLP1,\n"
    "                         EICS, EERD, ABSENT, FWSM, RXPBSIZE, IPSEC, SW_FW_SYNC\n"
    "  --bare                 turn off all of them\n"
    "  --control=PATH         listen on this socket for requests; the request \"help\" lists them\n"
    "  --seed=N               run each device step and each reset immediately or late, at random with this seed\n"
    "  --iommu-check          report each access outside the guest's memory, with the register accesses before it\n"
    "  --strays=FILE          on exit, write a list of the accesses outside the register table to this file\n"
    "  --trace=FILE           write each register access to this file\n"
    "  --record=FILE          write the calls to the device as a script, for nicview\n"
    "  --quiet                don't print counts on exit\n"
    "  --client-memory=GIB    let each client map at most this much memory (default: the machine's RAM and swap)\n"
    "  --trust-files          map any file as guest memory; a hanging file system then blocks all guests\n"
    "  --unconfined           don't drop privileges after startup, for debuggers\n"
    "  --ask=PATH             send requests to the server with this control socket: each argument, or each line of\n"
    "                         standard input\n"
    "  --help, --version      print this or the version, and exit\n"
    "\n"
    "While serving, the process has no capabilities and can't open, create or remove files. It can still read, write\n"
    "and close open files, accept clients on its sockets, receive files from them, and map memory that isn't "
    "executable.\n"
    "A second process, which can do nothing else, removes the sockets on exit. With --wire=stream or dgram, a third\n"
    "process connects the wire. docs/guests.md lists the kernel features that this needs.\n";

/* Returns the value in a word `NAME=VALUE`; null if the word doesn't begin with this name. */
static const char *value_of(const char *word, const char *name)
{
    size_t length = strlen(name);
    return strncmp(word, name, length) == 0 && word[length] == '=' ? word + length + 1 : NULL;
}

/* Reads a number from 0 to `most` in C's notation for this base. */
static bool number_of(const char *text, int base, unsigned long long most, unsigned long long *number)
{
    char *end;
    errno = 0;
    *number = strtoull(text, &end, base);
    return *text && *text != '-' && *text != '+' && *text != ' ' && *end == 0 && errno == 0 && *number <= most;
}

static bool mac_of(const char *text, uint8_t mac[6])
{
    unsigned int parts[6];
    int end = 0;
    if (sscanf(text, "%2x:%2x:%2x:%2x:%2x:%2x%n", &parts[0], &parts[1], &parts[2], &parts[3], &parts[4], &parts[5],
               &end) != 6 ||
        text[end] || parts[0] & 1)
        return false;
    for (int i = 0; i < 6; i++)
        mac[i] = (uint8_t)parts[i];
    return true;
}

static bool ipv4_of(const char *text, uint32_t *address)
{
    unsigned int parts[4];
    int end = 0;
    *address = 0;
    if (sscanf(text, "%3u.%3u.%3u.%3u%n", &parts[0], &parts[1], &parts[2], &parts[3], &end) != 4 || text[end])
        return false;
    for (int i = 0; i < 4; i++) {
        if (parts[i] > 255)
            return false;
        *address = *address << 8 | parts[i];
    }
    return true;
}

static bool wire_of(struct options *it, const char *text)
{
    struct wire_options *wire = &it->wire;
    char *comma;
    if (strlen(text) >= sizeof it->wire_text)
        return false;
    strcpy(it->wire_text, text);
    wire->path = strchr(it->wire_text, ':') ? strchr(it->wire_text, ':') + 1 : NULL;
    size_t kind = strcspn(text, ":");
    if (strcmp(text, "none") == 0 || strcmp(text, "respond") == 0) {
        wire->kind = *text == 'n' ? WIRE_NONE : WIRE_RESPOND;
        return true;
    }
    if (!wire->path || !*wire->path)
        return false;
    if (strncmp(text, "respond", kind) == 0) {
        wire->kind = WIRE_RESPOND;
        return kind == strlen("respond") && ipv4_of(wire->path, &wire->address);
    }
    wire->kind = strncmp(text, "stream", kind) == 0   ? WIRE_STREAM
                 : strncmp(text, "listen", kind) == 0 ? WIRE_LISTEN
                                                      : WIRE_DGRAM;
    if (kind == strlen("stream") && wire->kind != WIRE_DGRAM)
        return true;
    comma = strchr(it->wire_text, ',');
    if (kind != strlen("dgram") || strncmp(text, "dgram", kind) != 0 || !comma || !comma[1])
        return false;
    *comma = 0;
    wire->peer = comma + 1;
    return true;
}

static bool interrupts_of(struct options *it, const char *name)
{
    static const char *const names[] = {[CARD_INTX] = "intx", [CARD_MSI] = "msi", [CARD_MSIX] = "msix"};
    for (int kind = CARD_INTX; kind <= CARD_MSIX; kind++)
        if (strcmp(name, names[kind]) == 0) {
            it->card.interrupts = (enum card_interrupts)kind;
            return true;
        }
    return false;
}

static bool leave_out(struct options *it, const char *name)
{
    unsigned int answer = bus_answer_named(name);
    it->card.answers &= ~answer;
    if (strcmp(name, "offloads") == 0)
        it->card.has_offloads = false;
    else if (strcmp(name, "legacy") == 0)
        it->card.has_legacy = false;
    else
        return answer != 0;
    return true;
}

/* Reads words with a number or an address as their value. */
static bool read_number_word(struct options *it, const char *word, bool *is_known)
{
    unsigned long long number;
    const char *value;
    *is_known = true;
    if ((value = value_of(word, "--fd")))
        return number_of(value, 10, 1 << 20, &number) && (it->file = (int)number, true);
    if ((value = value_of(word, "--functions")))
        return number_of(value, 10, CARD_FUNCTIONS_MOST, &number) && (it->card.functions = (unsigned int)number, true);
    if ((value = value_of(word, "--device")))
        return number_of(value, 16, 0xFFFF, &number) && (it->device = (uint16_t)number, true);
    if ((value = value_of(word, "--seed"))) {
        it->card.has_seed = true;
        return number_of(value, 0, UINT64_MAX, &number) && (it->card.seed = number, true);
    }
    if ((value = value_of(word, "--client-memory")))
        return number_of(value, 10, MEMORY_MOST, &number) && number &&
               (it->client_memory = (uint64_t)number << 30, true);
    if ((value = value_of(word, "--interrupts")))
        return interrupts_of(it, value);
    if ((value = value_of(word, "--mac")))
        return mac_of(value, it->card.mac);
    if ((value = value_of(word, "--wire")))
        return wire_of(it, value);
    if ((value = value_of(word, "--without")))
        return leave_out(it, value);
    *is_known = false;
    return true;
}

/* Reads words with a file as their value. */
static bool read_file_word(struct options *it, const char *word)
{
    const struct {
        const char *name, **to;
    } files[] = {{"--socket-path", &it->socket_path}, {"--capture", &it->wire.capture}, {"--play", &it->wire.play},
                 {"--strays", &it->strays},           {"--trace", &it->trace},          {"--record", &it->record},
                 {"--control", &it->control}};
    for (size_t i = 0; i < sizeof files / sizeof *files; i++) {
        const char *value = value_of(word, files[i].name);
        if (value && *value) {
            *files[i].to = value;
            return true;
        }
    }
    return false;
}

static bool read_plain_word(struct options *it, const char *word)
{
    if (strcmp(word, "--bare") == 0) {
        it->card.answers = 0;
        it->card.has_offloads = it->card.has_legacy = false;
    } else if (strcmp(word, "--iommu-check") == 0) {
        it->card.has_check = true;
    } else if (strcmp(word, "--hairpin") == 0) {
        it->wire.has_hairpin = true;
    } else if (strcmp(word, "--quiet") == 0) {
        it->is_quiet = true;
    } else if (strcmp(word, "--trust-files") == 0) {
        it->trusts_files = true;
    } else if (strcmp(word, "--unconfined") == 0) {
        it->is_unconfined = true;
    } else {
        return false;
    }
    return true;
}

static enum options_status wrong(const char *what, const char *word)
{
    fprintf(stderr, NAME ": %s%s; --help lists the options\n", what, word);
    return OPTIONS_WRONG;
}

static enum options_status check(const struct options *it)
{
    if (!it->socket_path == (it->file < 0))
        return wrong("give either --socket-path=PATH or --fd=N", "");
    if (it->file >= 0 && it->card.functions)
        return wrong("--functions needs --socket-path", "");
    if (it->socket_path && strlen(it->socket_path) + strlen(".shadow0") >= FUNCTION_PATH_MOST)
        return wrong("a socket's name is at most 99 bytes long: ", it->socket_path);
    return OPTIONS_GO;
}

enum options_status options_read(struct options *it, int count, char **words)
{
    bool is_known;
    *it = (struct options){.file = -1,
                           .device = PHYSICAL_DEVICE,
                           .card = {.mac = {0x02, 0x00, 0x00, 0x00, 0x82, 0x99},
                                    .interrupts = CARD_MSIX,
                                    .answers = BUS_ALL,
                                    .has_offloads = true,
                                    .has_legacy = true},
                           .wire = {.kind = WIRE_RESPOND, .address = RESPONDER}};
    for (int i = 1; i < count; i++) {
        if (strcmp(words[i], "--help") == 0 || strcmp(words[i], "--version") == 0) {
            if (words[i][2] == 'h')
                fputs(help, stdout);
            else
                printf(NAME " %s, %s edition\n", nic_version(), nic_edition());
            return OPTIONS_END;
        }
        if (!read_number_word(it, words[i], &is_known))
            return wrong("bad value: ", words[i]);
        if (!is_known && !read_file_word(it, words[i]) && !read_plain_word(it, words[i]))
            return wrong("unknown option: ", words[i]);
    }
    it->wire.is_confined = !it->is_unconfined;
    it->card.is_recorded = it->record || getenv("NIC82599_RECORD");
    return check(it);
}
