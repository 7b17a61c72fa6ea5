#define _GNU_SOURCE
#include "log.h"

#include <inttypes.h>
#include <stdarg.h>
#include <stdbool.h>
#include <stdio.h>
#include <string.h>
#include <time.h>
#include <unistd.h>

#include "output.h"

#define LINE_MOST 1024
#define LAST_WORDS_MS 1000
#define THOUSAND UINT64_C(1000)

/* For each kind: the name of its lines, and the size of a burst. */
static const struct {
    const char *name;
    uint64_t limit;
} kinds[LOG_KINDS] = {
    [LOG_SERVER] = {"the server", LOG_AT_ONCE},
    [LOG_CLIENT] = {"clients", LOG_AT_ONCE},
    [LOG_MESSAGE] = {"refused messages", LOG_AT_ONCE},
    [LOG_ACCESS] = {"refused accesses", LOG_AT_ONCE},
    [LOG_FAULT] = {"faults", LOG_AT_ONCE},
    [LOG_CHECK] = {"accesses outside the guest's memory", LOG_CHECKS_AT_ONCE},
    [LOG_WIRE] = {"the wire", LOG_AT_ONCE},
};

/* The account of a kind and client. It earns LOG_A_SECOND lines each second, up to the kind's limit, and each line
   costs one. Amounts are in thousandths of a line. */
static struct account {
    uint64_t has, at; /* balance, and the time in milliseconds when it was updated */
    uint64_t left_out;
} accounts[LOG_KINDS][LOG_CLIENTS];

static struct output output = {.file = -1};
static bool is_open;

static uint64_t now(void)
{
    struct timespec time;
    clock_gettime(CLOCK_MONOTONIC, &time);
    return (uint64_t)time.tv_sec * THOUSAND + (uint64_t)time.tv_nsec / 1000000;
}

void log_open(void)
{
    uint64_t began = now();
    is_open = true;
    output_begin(&output, STDERR_FILENO);
    if (output.file > STDERR_FILENO)
        dup2(output.file, STDERR_FILENO); /* other output to the same file then doesn't block either */
    for (unsigned int kind = 0; kind < LOG_KINDS; kind++)
        for (unsigned int client = 0; client < LOG_CLIENTS; client++)
            accounts[kind][client] = (struct account){.has = kinds[kind].limit * THOUSAND, .at = began};
}

/* ---- accounts ---- */

static void pay_in(struct account *it, uint64_t limit)
{
    uint64_t time = now();
    it->has += (time - it->at) * LOG_A_SECOND;
    it->at = time;
    if (it->has > limit * THOUSAND)
        it->has = limit * THOUSAND;
}

/* Pays for a line of this kind and client. Returns whether it may be printed. */
static bool pay(enum log_kind kind, struct account *it)
{
    pay_in(it, kinds[kind].limit);
    if (it->has < THOUSAND)
        return false;
    it->has -= THOUSAND;
    return true;
}

static void say(const char *format, ...) __attribute__((format(printf, 1, 2)));

static void say(const char *format, ...)
{
    char line[128];
    va_list rest;
    va_start(rest, format);
    int length = vsnprintf(line, sizeof line, format, rest);
    va_end(rest);
    output_put(&output, line, (size_t)length);
}

static void say_what_was_left_out(enum log_kind kind, struct account *it)
{
    if (it->left_out)
        say("%" PRIu64 " more lines about %s were left out\n", it->left_out, kinds[kind].name);
    it->left_out = 0;
}

/* ---- lines ---- */

/* A line may contain a client's string, so control characters are replaced. */
static void put(char *line, size_t length)
{
    for (size_t i = 0; i < length; i++)
        if ((unsigned char)line[i] < ' ' || line[i] == 0x7F)
            line[i] = '?';
    line[length] = '\n';
    output_put(&output, line, length + 1);
}

static void put_line(enum log_kind kind, unsigned int client, const char *format, va_list rest)
    __attribute__((format(printf, 3, 0)));

static void put_line(enum log_kind kind, unsigned int client, const char *format, va_list rest)
{
    char line[LINE_MOST + 1];
    if (!is_open)
        log_open();
    struct account *account = &accounts[kind][client % LOG_CLIENTS];
    if (!pay(kind, account)) {
        account->left_out++;
        return;
    }
    say_what_was_left_out(kind, account);
    int length = vsnprintf(line, LINE_MOST, format, rest);
    if (length > 0)
        put(line, length < LINE_MOST ? (size_t)length : LINE_MOST - 1);
}

void log_line(enum log_kind kind, const char *format, ...)
{
    va_list rest;
    va_start(rest, format);
    put_line(kind, LOG_NOBODY, format, rest);
    va_end(rest);
}

void log_client(unsigned int client, enum log_kind kind, const char *format, ...)
{
    va_list rest;
    va_start(rest, format);
    put_line(kind, client, format, rest);
    va_end(rest);
}

/* Calls a function for each account whose limit suppressed lines. Returns the number of calls. */
static unsigned int each_left_out(void (*call)(enum log_kind kind, struct account *account))
{
    unsigned int count = 0;
    for (unsigned int kind = 0; kind < LOG_KINDS; kind++)
        for (unsigned int client = 0; client < LOG_CLIENTS; client++) {
            struct account *account = &accounts[kind][client];
            if (!account->left_out)
                continue;
            count++;
            if (call)
                call(kind, account);
        }
    return count;
}

bool log_is_waiting(void)
{
    return buffer_waiting(&output.kept) != 0 || each_left_out(NULL) != 0;
}

static void say_if_paid(enum log_kind kind, struct account *account)
{
    if (pay(kind, account))
        say_what_was_left_out(kind, account);
}

void log_tick(void)
{
    output_flush(&output);
    each_left_out(say_if_paid);
}

void log_close(void)
{
    each_left_out(say_what_was_left_out);
    if (output.lost)
        say("%" PRIu64 " lines were lost because nothing read standard error\n", output.lost);
    output_end(&output, LAST_WORDS_MS);
}
