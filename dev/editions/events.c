/* Makes the same random calls to two libraries, and compares each answer byte by byte:

       events COUNT SEED FROM FOLDER ONE.so [OTHER.so]

   FOLDER is an empty folder for recordings. Event FROM and all later ones are printed; 0 prints none. With only one
   library, the program prints a digest of its answers: equal digests on two machines mean equal answers.

   For some calls, each memory request of one library fails in turn. Each failure must be reported and change nothing.
   No request of the other library fails, and it must return what the first one finally returns. The order in which the
   two request memory doesn't matter; the program prints how often it was the same.

   Status 0: nothing differs; 1: the first difference is printed; 2: the arguments or a library are invalid. */
#define _GNU_SOURCE
#include "chance.h"
#include "refuse.h"

#include <dirent.h>
#include <dlfcn.h>
#include <signal.h>
#include <stdio.h>
#include <stdlib.h>
#include <string.h>
#include <unistd.h>

enum { STATE_EVERY = 1000, OWN_EVERY = 64, MOST_REFUSED = 5000, VF_END = 0x2400, BLOCKS = 300, NONE = 2 };

static struct side sides[2];
static size_t side_count;
static struct answer answers[2], wanted;
static struct event event;
static bool is_recorded;
static uint64_t seed, digest, number;
static volatile sig_atomic_t acting; /* the library being called */

static struct {
    uint64_t calls[CALL_COUNT], statuses[256], whys[2][16], registers, bytes, recordings;
    uint64_t refusals, unneeded, asking, same_order, other_order[CALL_COUNT]; /* memory requests */
} seen;
static long held[2];

/* --- reporting a difference --- */

static void print_place(const char *what)
{
    printf("seed %llu, event %llu: %s\n", (unsigned long long)seed, (unsigned long long)number, what);
    event_print(&event);
}

static void differ(const char *what)
{
    print_place(what);
    for (size_t k = 0; k < side_count; k++) {
        printf(" library %zu:\n", k + 1);
        event_print_answer(&event, &answers[k]);
    }
    printf("to print the events before it, run the same command with FROM %llu\n",
           (unsigned long long)(number > 40 ? number - 40 : 1));
    exit(1);
}

static void died(int signal)
{
    refuse_end();
    printf("the call to library %d was killed by signal %d\n", (int)acting + 1, signal);
    print_place("no result");
    fflush(stdout);
    _exit(1);
}

/* --- calls --- */

static struct asked make(size_t k, const struct event *of, struct answer *answer, long refused)
{
    acting = (sig_atomic_t)k;
    refuse_begin(refused);
    event_make(&sides[k], of, answer);
    struct asked asked = refuse_end();
    held[k] += asked.held;
    return asked;
}

/* Whether an answer reports that a memory request of the call failed. */
static bool is_refusal(const struct answer *answer)
{
    event_refused(&event, NIC_OUT_OF_MEMORY, &wanted);
    /* nic_lend_all keeps the blocks that it lent, and nic_next_step may have skipped idle steps */
    if (event.call == CALL_nic_lend_all || event.call == CALL_nic_next_step)
        return answer->status == NIC_OUT_OF_MEMORY;
    return event_alike(&event, answer, &wanted);
}

/* Repeats the call, refusing its memory request 1, then 2, 3 and so on, until it makes no further request. */
static void make_refused(size_t k)
{
    for (long at = 1;; at++) {
        struct asked asked = make(k, &event, &answers[k], at);
        if (!asked.is_refused)
            return;
        seen.refusals++;
        if (answers[k].status != NIC_OUT_OF_MEMORY) { /* this memory only saves time */
            seen.unneeded++;
            return;
        }
        if (!is_refusal(&answers[k]))
            differ("a call whose memory request failed has the wrong status, or changed something");
        if (at == MOST_REFUSED)
            differ("the call never stops requesting memory");
    }
}

/* The steps that nic_settle ran before its memory request failed aren't undone, so the other library runs as many
   steps. */
static bool settle_refused(size_t k)
{
    struct asked asked = make(k, &event, &answers[k], 1 + (long)chance_below(3));
    if (answers[k].status != NIC_OUT_OF_MEMORY)
        return false;
    seen.refusals++;
    if (!asked.is_refused)
        differ("out of memory, but no memory request was made to fail");
    event.length = answers[k].count;
    make(1 - k, &event, &answers[1 - k], 0);
    answers[k].status = answers[1 - k].status; /* MORE if the array is full */
    event.length = OUTCOMES;
    return true;
}

/* nic_why works with less memory, and reports that in its last line. */
static void why_refused(size_t k)
{
    static const char end[] = "out of memory for a copy: waiting frames, requested enables and reported causes are "
                              "unknown\n";
    struct event of = event;
    of.room = of.length = ROOM;
    struct asked asked = make(k, &of, &answers[k], 1 + (long)chance_below(60));
    size_t length = strnlen((const char *)answers[k].bytes, ROOM);
    bool is_said =
        length >= sizeof end - 1 && memcmp(answers[k].bytes + length - (sizeof end - 1), end, sizeof end - 1) == 0;
    seen.refusals += asked.is_refused;
    if (asked.is_refused && !is_said && event.card != NOT_OPEN)
        differ("a memory request of nic_why failed, but it doesn't report this");
    make(k, &event, &answers[k], 0);
}

/* Makes a call to one library, with refused memory requests if the call allows it. Returns whether the other library
   was called too. */
static bool make_under_refusals(size_t k)
{
    if (event.call == CALL_nic_settle && side_count == 2)
        return settle_refused(k);
    if (event.call == CALL_nic_why)
        why_refused(k);
    else if (event.call == CALL_nic_settle || event.call == CALL_nic_record || event.call == CALL_nic_note)
        make(k, &event, &answers[k], 0);
    else
        make_refused(k);
    return false;
}

static void count_requests(const struct asked asked[2])
{
    if (asked[0].growths == 0 && asked[1].growths == 0)
        return;
    bool is_same = asked[0].growths == asked[1].growths && asked[0].order == asked[1].order;
    seen.asking++;
    seen.same_order += is_same;
    seen.other_order[event.call] += !is_same;
}

static void make_each(void)
{
    struct asked asked[2];
    size_t refused = !is_recorded && chance_below(2) ? chance_below(2) : NONE;
    if (refused < side_count && make_under_refusals(refused))
        return;
    for (size_t k = 0; k < side_count; k++)
        if (k != refused)
            asked[k] = make(k, &event, &answers[k], 0);
    if (refused == NONE && side_count == 2)
        count_requests(asked);
}

/* --- comparing --- */

static void compare(const char *what)
{
    if (side_count == 2 && !event_alike(&event, &answers[0], &answers[1]))
        differ(what);
    digest = event_digest(digest, &event, &answers[0]);
}

/* Makes a call that has no effect, only for the comparison. */
static void look(enum call call, uint8_t card, uint8_t vf, uint32_t at)
{
    memset(&event, 0, offsetof(struct event, given));
    event.call = call;
    event.card = card;
    event.vf = vf;
    event.number = at;
    for (size_t k = 0; k < side_count; k++)
        make(k, &event, &answers[k], 0);
    compare("a register differs");
    seen.registers++;
}

static void look_at_block(uint8_t card, uint32_t block)
{
    memset(&event, 0, offsetof(struct event, given));
    event.call = CALL_nic_dma_read;
    event.card = card;
    event.bus = (uint64_t)2048 * block;
    event.length = event.room = 2048;
    for (size_t k = 0; k < side_count; k++)
        make(k, &event, &answers[k], 0);
    compare("memory differs");
    seen.bytes += 2048;
}

static void compare_own(void)
{
    if (side_count == 2 && memcmp(sides[0].own, sides[1].own, sizeof sides[0].own) != 0)
        differ("the caller's memory differs");
}

/* Compares all registers and bytes of both cards, and the registers of a virtual function. */
static void compare_states(void)
{
    for (uint8_t card = 0; card < CARDS; card++) {
        uint8_t vf = (uint8_t)chance_below(8);
        for (size_t at = 0; at < chance_address_count; at++)
            look(CALL_nic_peek32, card, 0, chance_addresses[at]);
        for (uint32_t offset = 0; offset < VF_END; offset += 4)
            look(CALL_nic_vf_peek32, card, vf, offset);
        for (uint32_t block = 0; block < BLOCKS; block++)
            look_at_block(card, block);
    }
    compare_own();
}

/* --- recordings --- */

static char *text_of(const char *folder, const char *name)
{
    char path[1024];
    snprintf(path, sizeof path, "%s/%s", folder, name);
    FILE *file = fopen(path, "r");
    char *text = NULL;
    size_t room = 0;
    if (!file || getdelim(&text, &room, 0, file) < 0)
        text = NULL;
    if (file)
        fclose(file);
    unlink(path);
    return text;
}

/* Returns a recording without its first two lines; the second one names the library that made it. */
static const char *after_head(const char *text)
{
    const char *end = text ? strchr(text, '\n') : NULL;
    end = end ? strchr(end + 1, '\n') : NULL;
    return end ? end : "";
}

static void compare_recordings(void)
{
    DIR *folder = opendir(sides[0].folder);
    struct dirent *entry;
    while (folder && (entry = readdir(folder))) {
        if (entry->d_name[0] == '.')
            continue;
        char *one = text_of(sides[0].folder, entry->d_name);
        char *other = side_count == 2 ? text_of(sides[1].folder, entry->d_name) : NULL;
        if (side_count == 2 && strcmp(after_head(one), after_head(other)) != 0)
            differ("a recording differs");
        seen.recordings++;
        free(one);
        free(other);
    }
    if (folder)
        closedir(folder);
}

/* --- the program --- */

/* Writes to the caller's own memory between two calls, whether or not it is lent. */
static void store(void)
{
    uint32_t card = chance_below(CARDS), own = chance_below(OWN), at = chance_below(OWN_BYTES - 64);
    for (uint32_t k = 0; k < 64; k++) {
        uint8_t byte = (uint8_t)chance_below(256);
        sides[0].own[card][own][at + k] = sides[1].own[card][own][at + k] = byte;
    }
}

static bool is_any_open(void)
{
    for (size_t card = 0; card < CARDS; card++)
        if (sides[0].cards[card].device)
            return true;
    for (size_t kept = 0; kept < KEPT; kept++)
        if (sides[0].kept[kept].kept)
            return true;
    return false;
}

/* Nothing is open any longer, so a library that still holds memory has leaked it. */
static void look_for_losses(void)
{
    for (size_t k = 0; k < side_count; k++) {
        if (held[k] != 0) {
            printf("library %zu: %ld blocks of memory are leaked\n", k + 1, held[k]);
            differ("memory is leaked");
        }
    }
}

static void count_status(const struct answer *answer)
{
    seen.statuses[answer->status]++;
    if (answer->status == NIC_DROPPED || answer->status == NIC_FAULT)
        seen.whys[answer->status == NIC_FAULT][answer->outcome->why & 15]++;
}

static void one_event(uint64_t from)
{
    chance_event(&sides[0], &event);
    number++;
    if (from && number >= from) {
        printf("%llu ", (unsigned long long)number);
        event_print(&event);
    }
    make_each();
    compare("the results differ");
    seen.calls[event.call]++;
    count_status(&answers[0]);
    if (event.call == CALL_nic_record) {
        is_recorded = event.flag;
        compare_recordings();
    }
    bool is_end = event.call == CALL_nic_free || event.call == CALL_nic_free_snapshot;
    if (is_end && !is_recorded && !is_any_open())
        look_for_losses();
    if (number % OWN_EVERY == 0)
        store(), compare_own();
    if (number % STATE_EVERY == 0)
        compare_states();
}

static void load(struct side *side, const char *file, const char *folder, size_t k)
{
    void *opened = dlopen(file, RTLD_NOW | RTLD_LOCAL);
    char *path = malloc(strlen(folder) + 16);
    if (!opened || !path) {
        fprintf(stderr, "events: %s\n", opened ? "out of memory" : dlerror());
        exit(2);
    }
    sprintf(path, "%s/%zu", folder, k);
    side->folder = path;
#define LOAD(name)                                                                                                     \
    *(void **)&side->lib.name = dlsym(opened, #name);                                                                  \
    if (!side->lib.name) {                                                                                             \
        fprintf(stderr, "events: %s has no %s\n", file, #name);                                                        \
        exit(2);                                                                                                       \
    }
    CALLS(LOAD)
#undef LOAD
}

static void print_seen(void)
{
    printf("%llu events, %llu registers, %llu bytes of memory and %llu recordings compared; ",
           (unsigned long long)number, (unsigned long long)seen.registers, (unsigned long long)seen.bytes,
           (unsigned long long)seen.recordings);
    printf("%llu memory requests made to fail, %llu of them without effect", (unsigned long long)seen.refusals,
           (unsigned long long)seen.unneeded);
    if (side_count == 2)
        printf("; %llu of %llu calls requested the same memory in the same order from both",
               (unsigned long long)seen.same_order, (unsigned long long)seen.asking);
    printf("\nstatuses:");
    for (int status = 0; status < 256; status++)
        if (seen.statuses[status])
            printf(" %s %llu;", nic_status_name((uint8_t)status), (unsigned long long)seen.statuses[status]);
    printf("\nwhy:");
    for (uint8_t why = 1; why < 16; why++) {
        if (seen.whys[0][why])
            printf(" dropped, %s %llu;", nic_why_name(why), (unsigned long long)seen.whys[0][why]);
        if (seen.whys[1][why])
            printf(" fault, %s %llu;", nic_fault_name(why), (unsigned long long)seen.whys[1][why]);
    }
    printf("\ncalls:");
    for (int call = 0; call < CALL_COUNT; call++)
        printf(" %s %llu;", event_name((enum call)call), (unsigned long long)seen.calls[call]);
    printf("\ncalls with different memory requests, or in a different order:");
    for (int call = 0; call < CALL_COUNT; call++)
        if (seen.other_order[call])
            printf(" %s %llu;", event_name((enum call)call), (unsigned long long)seen.other_order[call]);
    printf("\ndigest %016llx\n", (unsigned long long)digest);
}

int main(int count, char **words)
{
    if (count != 6 && count != 7) {
        fprintf(stderr, "events COUNT SEED FROM FOLDER ONE.so [OTHER.so]\n");
        return 2;
    }
    uint64_t events = strtoull(words[1], NULL, 10), from = strtoull(words[3], NULL, 10);
    seed = strtoull(words[2], NULL, 10);
    side_count = (size_t)count - 5;
    for (size_t k = 0; k < side_count; k++)
        load(&sides[k], words[5 + k], words[4], k + 1);
    for (const int *it = (const int[]){SIGSEGV, SIGABRT, SIGBUS, SIGILL, SIGFPE, SIGTRAP, 0}; *it; it++)
        signal(*it, died);
    chance_seed(seed);
    while (number < events || is_any_open())
        one_event(from);
    print_seen();
    return 0;
}
