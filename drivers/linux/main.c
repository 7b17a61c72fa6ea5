/* The card of a User-Mode Linux, in a separate process: the bench's device as PCI over virtio, and the far end of the
   wire. drivers/linux/run compiles it and starts the guest.

     card --socket PATH [--functions N] [--device ID] [--without ANSWER].. [--strays FILE] [--trace FILE]
          [--turn in | out]

   It waits for the guest at PATH, and at PATH.v for virtual function v, and exits when the guest does. The shim's
   answers are SWSM, ANLP1, EICS, EERD and ABSENT. --turn changes one byte of one frame. Status 0: all was correct,
   including in the guest; 1: something was wrong; 2: a file can't be written; 3: unknown arguments. */
#include <errno.h>
#include <stdio.h>
#include <stdlib.h>
#include <string.h>

#include "pci.h"
#include "peer.h"
#include "run.h"
#include "verdict.h"

#define DEVICE 0x10F7 /* 82599EB, KX4 */
#define FIFO 64
#define FLIPPED 10 /* the frame in which --turn changes a byte */

static const char *const phases[] = {PHASE_NAMES, NULL};

struct words {
    const char *socket, *strays, *trace;
    unsigned int functions, without;
    uint16_t device;
    uint64_t turn_in, turn_out;
};

/* ---- arguments ---- */

static bool read_turn(const char *word, struct words *it)
{
    it->turn_in = strcmp(word, "in") == 0 ? FLIPPED : it->turn_in;
    it->turn_out = strcmp(word, "out") == 0 ? FLIPPED : it->turn_out;
    return strcmp(word, "in") == 0 || strcmp(word, "out") == 0;
}

static bool read_text(const char *word, const char **text)
{
    *text = word;
    return *word != 0;
}

/* Parses an option with a value. Returns false if either is unknown. */
static bool read_pair(const char *word, const char *next, struct words *it)
{
    if (strcmp(word, "--socket") == 0)
        return read_text(next, &it->socket);
    if (strcmp(word, "--functions") == 0)
        return read_number(next, 0, FUNCTIONS_MOST, &it->functions);
    if (strcmp(word, "--device") == 0)
        return read_device(next, &it->device);
    if (strcmp(word, "--without") == 0)
        return (it->without |= bus_answer_named(next)) && bus_answer_named(next);
    if (strcmp(word, "--strays") == 0)
        return read_text(next, &it->strays);
    if (strcmp(word, "--trace") == 0)
        return read_text(next, &it->trace);
    return strcmp(word, "--turn") == 0 && read_turn(next, it);
}

static bool read_words(int count, char **words, struct words *it)
{
    *it = (struct words){.device = DEVICE};
    for (int i = 1; i + 1 < count; i += 2)
        if (!read_pair(words[i], words[i + 1], it))
            return false;
    return count % 2 == 1 && it->socket;
}

/* ---- the run ---- */

static bool open_trace(const char *name, FILE **file)
{
    *file = name ? fopen(name, "w") : NULL;
    if (name && !*file)
        fprintf(stderr, "can't write %s: %s\n", name, strerror(errno));
    if (*file)
        setvbuf(*file, NULL, _IOLBF, 0); /* flushes each line, so that a user of a debugger sees the last one */
    return !name || *file;
}

static bool open_all(const struct words *words, FILE *trace)
{
    struct bus_options options = {
        .mac = CARD_MAC,
        .functions = (uint8_t)words->functions,
        .fifo = FIFO,
        .answers = (BUS_SWSM | BUS_ANLP1 | BUS_EICS | BUS_EERD | BUS_ABSENT) & ~words->without,
        .acts_at_writes = true, /* ixgbevf disables its transmit queues without polling */
        .phases = phases,
        .calls = {.filled = peer_filled, .written = peer_goes_on, .message = pci_message},
        .trace = trace,
        .turn_in = words->turn_in,
        .turn_out = words->turn_out,
    };
    if (!run_open(&options, true)) {
        problem("can't open the bench: out of memory, or the source of its EEPROM image was refused");
        return false;
    }
    bus_send_to(run_bus, peer_takes, NULL);
    pci_order_to(peer_orders);
    bus_tell_answers(options.answers);
    fflush(stdout);
    return pci_open(words->socket, words->device, words->functions);
}

int main(int count, char **arguments)
{
    struct words words;
    FILE *trace;
    if (!read_words(count, arguments, &words)) {
        fprintf(stderr,
                "card --socket PATH [--functions 0..%d] [--device ID] [--without "
                "SWSM | ANLP1 | EICS | EERD | "
                "ABSENT].. [--strays FILE] [--trace FILE] [--turn in | out]\n",
                FUNCTIONS_MOST);
        return 3;
    }
    if (!open_trace(words.trace, &trace))
        return 2;
    if (open_all(&words, trace)) {
        pci_serve();
        pci_close();
        run_tell_counts();
        pci_tell();
        peer_tell();
        run_check_counts(0, peer_faults());
        same("faults for offloads that the guest expects", peer_faults(),
             bus_counts(run_bus)->fault_whys[NIC_FAULT_OFFLOAD]);
        if (words.strays)
            run_save_strays(words.strays);
        run_close();
    }
    if (trace && fclose(trace) != 0)
        problem("can't write %s: %s", words.trace, strerror(errno));
    return verdict();
}
