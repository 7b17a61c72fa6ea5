#define _GNU_SOURCE
#include "explain.h"

#include <malloc.h>
#include <pthread.h>
#include <signal.h>
#include <stdint.h>
#include <string.h>
#include <sys/eventfd.h>
#include <unistd.h>

#define TEXT_BYTES 65536

/* The copy to examine. */
struct copy {
    nic_kept device;
    struct rings *rings;
    bool has_line; /* the physical function's MSI-X is off */
};

enum state { FREE, ASKED, ANSWERED };

/* While `state` is ASKED, the thread owns `asked`, `text` and `is_short`. */
static pthread_mutex_t lock = PTHREAD_MUTEX_INITIALIZER;
static pthread_cond_t changed = PTHREAD_COND_INITIALIZER;
static enum state state;
static struct copy asked;
static char text[TEXT_BYTES];
static bool is_short;
static int event = -1;

/* ---- the answer ---- */

static void drop(struct copy *it)
{
    nic_drop_snapshot(&it->device);
    rings_free(it->rings);
    it->rings = NULL;
}

/* Returns whether the physical function raises a line or sends one MSI, for all causes. */
static bool has_line(const struct card *card)
{
    const struct function *function = card->sockets[BUS_PHYSICAL][0];
    return function && function_has_line(function);
}

/* Removes the reasons that concern only MSI-X messages: neither GPIE nor IVAR_MISC holds back a line or MSI. */
static void leave_out_messages(char *lines)
{
    static const char *const starts[] = {"int pf: GPIE.Multiple_MSIX ", "int pf: IVAR_MISC "};
    char *to = lines;
    for (const char *from = lines; *from;) {
        size_t length = strcspn(from, "\n");
        length += from[length] == '\n';
        if (strncmp(from, starts[0], strlen(starts[0])) != 0 && strncmp(from, starts[1], strlen(starts[1])) != 0) {
            memmove(to, from, length);
            to += length;
        }
        from += length;
    }
    *to = 0;
}

/* Writes to `text` what blocks the device's work. */
static void find_reasons(nic *device, bool is_line)
{
    nic_why(device, text, sizeof text);
    if (is_line)
        leave_out_messages(text);
}

/* Copies everything, or returns false and copies nothing. */
static bool copy_card(struct copy *it, struct card *card)
{
    card_give_due(card);
    *it = (struct copy){.rings = rings_copy(card->rings), .has_line = has_line(card)};
    if (it->rings && nic_snapshot(bus_device(card->bus), &it->device) == NIC_DONE)
        return true;
    drop(it);
    return false;
}

/* Writes to `text` what blocks the copy's work, or sets `is_short` if memory runs out. Frees the copy. */
static void look_at_copy(struct copy *it)
{
    nic device = {NULL};
    is_short = nic_open(&device, 0, 1, 1) != NIC_DONE || nic_restore(&device, &it->device) != NIC_DONE;
    if (!is_short) {
        rings_fill(it->rings, &device);
        find_reasons(&device, it->has_line);
    }
    nic_close(&device);
    drop(it);
}

/* ---- the thread ---- */

static void *answer_all(void *nothing)
{
    const uint64_t one = 1;
    (void)nothing;
    pthread_mutex_lock(&lock);
    for (;;) {
        while (state != ASKED)
            pthread_cond_wait(&changed, &lock);
        pthread_mutex_unlock(&lock);
        look_at_copy(&asked);
#ifdef __GLIBC__
        malloc_trim(0); /* otherwise the C library keeps most of the memory for this thread's next copy */
#endif
        pthread_mutex_lock(&lock);
        state = ANSWERED;
        if (write(event, &one, sizeof one) < 0) {
            /* a full counter is readable too */
        }
    }
    return NULL;
}

/* Starts the thread with all signals blocked: the process's first thread handles them. */
bool explain_start(void)
{
    pthread_t thread;
    sigset_t all, before;
    if (event >= 0)
        return true;
    event = eventfd(0, EFD_CLOEXEC | EFD_NONBLOCK);
    if (event < 0)
        return false;
    sigfillset(&all);
    pthread_sigmask(SIG_SETMASK, &all, &before);
    int error = pthread_create(&thread, NULL, answer_all, NULL);
    pthread_sigmask(SIG_SETMASK, &before, NULL);
    return error == 0 && pthread_detach(thread) == 0;
}

/* ---- the callers ---- */

static bool has_state(enum state wanted)
{
    pthread_mutex_lock(&lock);
    bool has = state == wanted;
    pthread_mutex_unlock(&lock);
    return has;
}

static void become(enum state next)
{
    pthread_mutex_lock(&lock);
    state = next;
    pthread_cond_signal(&changed);
    pthread_mutex_unlock(&lock);
}

int explain_file(void)
{
    return event;
}

bool explain_is_free(void)
{
    return has_state(FREE);
}

bool explain_ask(struct card *card)
{
    bool is_whole = copy_card(&asked, card);
    if (is_whole)
        become(ASKED);
    return is_whole;
}

bool explain_is_ready(void)
{
    return has_state(ANSWERED);
}

const char *explain_text(void)
{
    return is_short ? NULL : text;
}

void explain_end(void)
{
    uint64_t count;
    if (read(event, &count, sizeof count) < 0) {
        /* a signal that can't be read now is read with the next answer */
    }
    become(FREE);
}

const char *explain_now(struct card *card)
{
    if (card->options.is_recorded) {
        card_give_due(card);
        rings_fill(card->rings, bus_device(card->bus));
        find_reasons(bus_device(card->bus), has_line(card));
        return text;
    }
    is_short = !copy_card(&asked, card);
    if (!is_short)
        look_at_copy(&asked);
    return explain_text();
}
