/* Runs iPXE's compiled driver on the bench: main FILE [--vf] [--frames N] [--turn-in N] [--turn-out N] [--trace FILE]
   [--strays FILE] [--console]. See drivers/ipxe/run for what they mean. */
#include <inttypes.h>
#include <stdio.h>
#include <string.h>

#include "card.h"
#include "efi.h"
#include "legacy.h"
#include "mailbox.h"
#include "run.h"
#include "traffic.h"
#include "trap.h"
#include "verdict.h"

#define FRAMES_MOST 1000000ul
#define UNKNOWN 3
#define MISSING 2

/* Control-B opens iPXE's prompt. */
static const char keys[] = "\002\002\002ifopen net0\nchain file:/test.efi\nifclose net0\nexit\n";

struct words {
    struct card_setting card;
    const char *image, *strays;
    bool shows_console;
};

static bool read_count(const char *word, uint64_t *count)
{
    unsigned int number = 0;
    bool is_read = word && read_number(word, 1, FRAMES_MOST, &number);
    *count = number;
    return is_read;
}

/* Parses one option, with `next` as its value if it takes one. Returns the number of words used; 0 if it is unknown. */
static int read_option(struct words *words, const char *option, const char *next)
{
    uint64_t frames = 0;
    if (strcmp(option, "--vf") == 0)
        return words->card.is_virtual = true;
    if (strcmp(option, "--console") == 0)
        return words->shows_console = true;
    if (strcmp(option, "--trace") == 0 && (words->card.trace = next))
        return 2;
    if (strcmp(option, "--strays") == 0 && (words->strays = next))
        return 2;
    if (strcmp(option, "--turn-in") == 0)
        return read_count(next, &words->card.turn_in) ? 2 : 0;
    if (strcmp(option, "--turn-out") == 0)
        return read_count(next, &words->card.turn_out) ? 2 : 0;
    if (strcmp(option, "--frames") != 0 || !read_count(next, &frames))
        return 0;
    traffic_set((unsigned int)frames);
    return 2;
}

static bool read_words(int count, char **given, struct words *words)
{
    words->image = count > 1 ? given[1] : NULL;
    for (int i = 2, taken; i < count; i += taken) {
        taken = read_option(words, given[i], i + 1 < count ? given[i + 1] : NULL);
        if (!taken) {
            fprintf(stderr, "main: unknown argument: %s\n", given[i]);
            return false;
        }
    }
    return words->image != NULL;
}

static void tell(const struct words *words)
{
    printf("%" PRIu64 " trapped register accesses, %" PRIu64 " accesses to configuration space;\n"
           "  translated legacy descriptors: %" PRIu64 " received, %" PRIu64 " sent\n",
           trap_count(), pci_accesses(), legacy_received(), legacy_sent());
    run_tell_counts();
    if (words->card.is_virtual)
        mailbox_tell(run_bus);
    if (words->strays)
        run_save_strays(words->strays);
    run_check_counts(traffic_drops(), 0);
}

int main(int count, char **given)
{
    struct words words = {.image = NULL};
    if (!read_words(count, given, &words))
        return UNKNOWN;
    seconds();
    if (!card_open(&words.card))
        return MISSING;
    struct efi_setting setting = {
        .image = words.image, .keys = keys, .on_start = traffic_run, .is_silent = !words.shows_console};
    if (!efi_run(&setting))
        problem("iPXE didn't exit successfully");
    tell(&words);
    printf("%.2f s\n", seconds());
    card_close();
    return verdict();
}
