#define _POSIX_C_SOURCE 200809L
#include "recording.h"
#include "../in_place/table.h"
#include "../why/drops.h"
#include "tell.h"

#include <errno.h>
#include <fcntl.h>
#include <pthread.h>
#include <stdarg.h>
#include <stdbool.h>
#include <stdio.h>
#include <stdlib.h>
#include <string.h>
#include <unistd.h>

/* LENT is the length of each line about lent blocks. */
enum { REPLIES = 28, FIRST_ROOM = 4096, LENT = REPLIES + sizeof " # done\n" - 1 };

struct kept {
    struct kept *next;
    void *of; /* handle of the snapshot */
    uint32_t number;
};

struct recording {
    struct recording *next;
    void *device;
    int file;
    bool is_whole; /* no line was lost */
    uint32_t strings, snapshots;
    struct kept *kept;
    char *text;
    size_t used, room, line; /* bytes of `text`, and the start of its last line */
    uint32_t lent, lent_end; /* the blocks that the last line is about; 0 and 0 if it isn't about lent blocks */
    struct nicl_on on;
    bool is_again; /* `text` replaces the file's last line, which is LENT bytes long */
};

/* Programs started by this one don't inherit the file, and bytes are written unchanged. */
#ifdef _WIN32
enum { AS_WRITTEN = O_NOINHERIT | O_BINARY };
#else
enum { AS_WRITTEN = O_CLOEXEC };
#endif

int nicl_is_watched;

/* `all` protects everything below. */
static pthread_mutex_t all = PTHREAD_MUTEX_INITIALIZER;
static struct recording *recordings;
static char *path;      /* the caller's path; null: nothing is recorded */
static int opened = -1; /* the first file, if nic_record opened it */
static unsigned files;  /* number of controllers that got a file */
static bool is_decided; /* nic_record was called, or the environment was read */

static void hold(void)
{
    pthread_mutex_lock(&all);
}

static void let_go(void)
{
    pthread_mutex_unlock(&all);
}

static void note(void)
{
    __atomic_store_n(&nicl_is_watched, recordings != NULL || nicl_is_telling(), __ATOMIC_RELAXED);
}

static void say(const char *name, const char *why)
{
    fprintf(stderr, "nic82599: %s can't be written (%s), so this run isn't recorded there\n", name, why);
}

/* --- files --- */

/* Builds the file name of a controller, counted from 0: %p becomes the process ID, and for the second and later
   controllers a number follows. */
static void name_of(unsigned number, char *name, size_t room)
{
    size_t at = 0;
    for (const char *c = path; *c && at + 24 < room; c++) {
        if (c[0] == '%' && c[1] == 'p') {
            at += (size_t)snprintf(name + at, room - at, "%ld", (long)getpid());
            c++;
        } else {
            name[at++] = *c;
        }
    }
    name[at] = 0;
    if (number)
        snprintf(name + at, room - at, ".%u", number + 1);
}

static int open_file(unsigned number)
{
    char name[4096];
    name_of(number, name, sizeof name);
    int file = open(name, O_WRONLY | O_CREAT | O_TRUNC | AS_WRITTEN, 0666);
    if (file < 0)
        say(name, strerror(errno));
    return file;
}

static void put_out(struct recording *it)
{
    const char *text = it->text;
    size_t left = it->is_whole ? it->used : 0;
    if (left && it->is_again)
        lseek(it->file, -(off_t)LENT, SEEK_CUR);
    while (left) {
        ssize_t written = write(it->file, text, left);
        if (written < 0 && errno == EINTR)
            continue;
        if (written < 0) {
            fprintf(stderr, "nic82599: a recording stops here: %s\n", strerror(errno));
            it->is_whole = false;
            break;
        }
        text += written;
        left -= (size_t)written;
    }
    it->used = it->line = 0;
    it->is_again = false;
}

static void finish(struct recording *it)
{
    while (it->kept) {
        struct kept *next = it->kept->next;
        free(it->kept);
        it->kept = next;
    }
    close(it->file);
    free(it->text);
    free(it);
}

static void finish_all(void)
{
    while (recordings) {
        struct recording *next = recordings->next;
        finish(recordings);
        recordings = next;
    }
    if (opened >= 0)
        close(opened);
    opened = -1;
    note();
}

#ifndef _WIN32
/* A fork waits until other threads' calls have finished, so that the child gets consistent data. */
static void before_fork(void)
{
    hold();
    nicl_table_hold();
    nicl_drops_hold();
}

static void in_parent(void)
{
    nicl_drops_let_go();
    nicl_table_let_go();
    let_go();
}

/* A child doesn't record controllers that its parent records. It records the controllers that it creates, if the file
   name contains %p. */
static void in_child(void)
{
    nicl_drops_let_go();
    nicl_table_let_go();
    nicl_tell_forked();
    finish_all();
    files = 0;
    if (path && !strstr(path, "%p")) {
        free(path);
        path = NULL;
    }
    let_go();
}

static void prepare_forks(void)
{
    pthread_atfork(before_fork, in_parent, in_child);
}
#else
static void prepare_forks(void)
{
}
#endif

static void at_exit(void)
{
    hold();
    nicl_tell_all_ends();
    let_go();
}

static void prepare(void)
{
    prepare_forks();
    if (nicl_is_telling())
        atexit(at_exit);
}

/* --- recorded controllers --- */

static void take_path(const char *given)
{
    static bool is_prepared;
    if (!is_prepared)
        prepare();
    is_prepared = is_decided = true;
    free(path);
    path = given && *given ? malloc(strlen(given) + 1) : NULL;
    if (path)
        strcpy(path, given);
    files = 0;
}

bool nic_record(const char *given)
{
    hold();
    if (!given)
        finish_all();
    if (opened >= 0)
        close(opened);
    take_path(given);
    opened = path ? open_file(0) : -1;
    bool is_there = !given || opened >= 0;
    if (!is_there)
        take_path(NULL);
    let_go();
    return is_there;
}

void nicl_begin(const nic *n, uint8_t vfs, uint16_t fifo, uint32_t blocks)
{
    hold();
    if (!is_decided)
        take_path(getenv("NIC82599_RECORD"));
    struct recording *it = path ? calloc(1, sizeof *it) : NULL;
    if (it) {
        it->file = opened >= 0 ? opened : open_file(files);
        opened = -1;
        files++;
    }
    if (it && it->file >= 0) {
        it->device = n->device;
        it->is_whole = true;
        it->next = recordings;
        recordings = it;
        nicl_add(it, "#: nic vfs %u fifo %u blocks %lu\n", vfs, fifo, (unsigned long)blocks);
        nicl_add(it, "# recorded by the %s library %s; nicbench run --vfs %u --fifo %u\n", nic_edition(), nic_version(),
                 vfs, fifo);
        put_out(it);
    } else if (it) { /* reported once, not for each controller */
        free(it);
        take_path(NULL);
    }
    nicl_tell_begin(n);
    note();
    let_go();
}

void nicl_end(const nic *n, struct recording *it)
{
    struct recording **at = &recordings;
    nicl_tell_end(n);
    if (!it)
        return;
    while (*at != it)
        at = &(*at)->next;
    *at = it->next;
    finish(it);
    note();
}

struct recording *nicl_enter(const nic *n)
{
    hold();
    struct recording *it = recordings;
    while (it && it->device != n->device)
        it = it->next;
    return it;
}

void nicl_leave(struct recording *it)
{
    if (it)
        put_out(it);
    let_go();
}

struct nicl_on *nicl_on_of(struct recording *it)
{
    return &it->on;
}

/* --- snapshots --- */

uint32_t nicl_keep(struct recording *it, const nic_kept *kept)
{
    struct kept *one = malloc(sizeof *one);
    it->snapshots++;
    if (!one)
        return it->snapshots;
    one->of = kept->kept;
    one->number = it->snapshots;
    one->next = it->kept;
    it->kept = one;
    return it->snapshots;
}

uint32_t nicl_kept(const struct recording *it, const nic_kept *kept)
{
    for (const struct kept *one = it->kept; one; one = one->next)
        if (one->of == kept->kept)
            return one->number;
    return 0;
}

struct recording *nicl_enter_dropped(nic_kept kept, uint32_t *number)
{
    hold();
    for (struct recording *it = recordings; it; it = it->next)
        for (struct kept **at = &it->kept; *at; at = &(*at)->next)
            if ((*at)->of == kept.kept) {
                struct kept *one = *at;
                *at = one->next;
                *number = one->number;
                free(one);
                return it;
            }
    return NULL;
}

/* --- text --- */

/* Makes room for more bytes. If memory runs out, the recording ends. */
static bool has_room(struct recording *it, size_t more)
{
    if (it->room - it->used >= more)
        return true;
    size_t room = it->room ? it->room : FIRST_ROOM;
    while (room - it->used < more)
        room *= 2;
    char *text = realloc(it->text, room);
    if (!text) {
        it->is_whole = false;
        return false;
    }
    it->text = text;
    it->room = room;
    return true;
}

static void note_line(struct recording *it)
{
    if (it->used && it->text[it->used - 1] == '\n')
        it->line = it->used;
}

/* If there is no memory for text, added text goes to this buffer, and is lost. */
static char nowhere[NICL_LINE];

struct nicl_text nicl_text_of(struct recording *it)
{
    it->lent = it->lent_end = 0;
    return nicl_text_in(has_room(it, NICL_LINE) ? it->text + it->used : nowhere, NICL_LINE);
}

void nicl_text_ends(struct recording *it, const struct nicl_text *text)
{
    if (!it->is_whole)
        return;
    it->used = (size_t)(text->at - it->text);
    note_line(it);
}

void nicl_add_text(struct recording *it, const char *text)
{
    struct nicl_text more = nicl_text_of(it);
    nicl_put(&more, text);
    nicl_text_ends(it, &more);
}

void nicl_add_number(struct recording *it, const char *before, uint64_t number, const char *after)
{
    struct nicl_text more = nicl_text_of(it);
    nicl_put(&more, before);
    nicl_put_number(&more, number);
    nicl_put(&more, after);
    nicl_text_ends(it, &more);
}

void nicl_add(struct recording *it, const char *format, ...)
{
    struct nicl_text more = nicl_text_of(it);
    va_list list;
    va_start(list, format);
    int length = vsnprintf(more.at, NICL_LINE, format, list);
    va_end(list);
    more.at += length < 0 ? 0 : length < NICL_LINE ? length : NICL_LINE - 1;
    nicl_text_ends(it, &more);
}

/* Returns the two digits of each byte, computed on first use. */
static const char (*digits_of_bytes(void))[2]
{
    static char digits[256][2];
    for (unsigned byte = 0; !digits[255][1] && byte < 256; byte++) {
        digits[byte][0] = "0123456789abcdef"[byte >> 4];
        digits[byte][1] = "0123456789abcdef"[byte & 15];
    }
    return (const char(*)[2])digits;
}

void nicl_add_hex(struct recording *it, const uint8_t *bytes, size_t length)
{
    const char(*digits)[2] = digits_of_bytes();
    if (!has_room(it, 2 * length))
        return;
    char *at = it->text + it->used;
    for (size_t k = 0; k < length; k++, at += 2)
        memcpy(at, digits[bytes[k]], 2);
    it->used += 2 * length;
}

uint32_t nicl_add_data(struct recording *it, const uint8_t *bytes, size_t length)
{
    static const uint8_t zero[1];
    nicl_add_number(it, "data d", it->strings, " ");
    nicl_add_hex(it, length ? bytes : zero, length ? length : 1);
    nicl_add_text(it, length ? "\n" : "  #: no bytes\n");
    return it->strings++;
}

void nicl_add_poke(struct recording *it, uint64_t bus, uint32_t name)
{
    struct nicl_text more = nicl_text_of(it);
    nicl_put(&more, "poke ");
    nicl_put_word(&more, bus, 5);
    nicl_put(&more, " d");
    nicl_put_number(&more, name);
    nicl_text_ends(it, &more);
}

void nicl_add_reply(struct recording *it)
{
    static const char blanks[REPLIES + 1] = "                            ";
    size_t wide = it->used - it->line;
    struct nicl_text more = nicl_text_of(it);
    if (wide < REPLIES)
        nicl_put_bytes(&more, blanks, REPLIES - wide);
    nicl_put_bytes(&more, " # ", 3);
    nicl_text_ends(it, &more);
}

/* Removes the last line, which is about lent blocks. If it is already in the file, `text` replaces it there. Returns
   false if the file can't be rewritten, for example a pipe: then the line stays. */
static bool is_taken_back(struct recording *it)
{
    if (it->used >= LENT)
        it->used -= LENT;
    else if (!it->used && lseek(it->file, 0, SEEK_CUR) >= (off_t)LENT)
        it->is_again = true;
    else
        return false;
    it->line = it->used;
    return true;
}

void nicl_add_lent(struct recording *it, uint32_t block)
{
    bool goes_on = it->lent_end && it->lent_end == block && is_taken_back(it);
    uint32_t first = goes_on ? it->lent : block;
    if (goes_on)
        nicl_add(it, "#: lend %lu to %lu", (unsigned long)first, (unsigned long)block);
    else
        nicl_add(it, "lend %lu", (unsigned long)block);
    nicl_add_reply(it);
    nicl_add(it, "done\n");
    it->lent = first;
    it->lent_end = block + 1;
}
