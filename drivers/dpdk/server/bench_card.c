/* The guest server's card without a server. This process is the card's only client, and the card accesses this
   process's memory in place. The file replaces c/vfio-user's dma.c, function.c, log.c and watch.c. */
#include "bench_card.h"

#include <stdarg.h>
#include <stdio.h>
#include <string.h>

#include "../bench.h"
#include "card.h"
#include "dma.h"
#include "function.h"
#include "log.h"
#include "run.h"
#include "verdict.h"
#include "watch.h"

#define LINE 300

static struct card card;
static struct function host;
static void (*sink)(const uint8_t *frame, size_t length);
static struct {
    uint64_t bus;
    uint8_t *host;
    size_t length;
} lent;

/* ---- the bench ---- */

static void out(void *to, unsigned int sender, const uint8_t *frame, size_t length)
{
    (void)to;
    (void)sender;
    if (sink)
        sink(frame, length);
}

bool bench_open(const struct bus_options *options)
{
    struct card_options its = {.interrupts = CARD_INTX, .answers = options->answers, .has_offloads = true};
    memcpy(its.mac, options->mac, sizeof its.mac);
    if (!card_open(&card, &its))
        return false;
    run_bus = card.bus;
    host.kind = FUNCTION_PHYSICAL;
    host.card = &card;
    card_add(&card, &host);
    card_send_to(&card, out, NULL);
    return true;
}

void bench_close(void)
{
    same("problems of the bus", bus_counts(card.bus)->problems, 0);
    card_close(&card);
    run_bus = NULL;
}

/* Runs the device's steps until none is due. */
static void settle(void)
{
    do
        card_begin_turn(&card);
    while (card_pump(&card));
}

uint32_t bench_read(unsigned int function, uint32_t offset)
{
    (void)function;
    uint32_t word = card_read(&card, &host, offset);
    settle();
    return word;
}

void bench_write(unsigned int function, uint32_t offset, uint32_t word)
{
    (void)function;
    card_write(&card, &host, offset, word);
    settle();
}

bool bench_lend(uint64_t bus, void *at, size_t length)
{
    if (lent.length)
        return false;
    lent.bus = bus;
    lent.host = at;
    lent.length = length;
    return true;
}

void bench_card_send_to(void (*to)(const uint8_t *frame, size_t length))
{
    sink = to;
}

void bench_card_counts(uint64_t *large, uint64_t *segments)
{
    *large = card.offload->counts.large;
    *segments = card.offload->counts.segments;
}

/* ---- the client's memory ---- */

struct dma dma_of(const struct function *function)
{
    return (struct dma){function, function->client};
}

bool dma_is(struct dma it, struct dma other)
{
    return it.function == other.function;
}

unsigned int dma_function(struct dma it)
{
    (void)it;
    return BUS_PHYSICAL;
}

unsigned int dma_socket(struct dma it)
{
    return it.function ? it.function->socket : DMA_NOBODY;
}

void *dma_whole(struct dma_address at, size_t length)
{
    bool is_inside = at.of.function && at.at >= lent.bus && length <= lent.length;
    return is_inside && at.at - lent.bus <= lent.length - length ? lent.host + (at.at - lent.bus) : NULL;
}

bool dma_has(struct dma_address at, size_t length)
{
    return dma_whole(at, length) != NULL;
}

bool dma_read(struct dma_address from, uint8_t *bytes, size_t length)
{
    const void *at = dma_whole(from, length);
    if (at)
        memcpy(bytes, at, length);
    return at != NULL;
}

bool dma_write(struct dma_address to, const uint8_t *bytes, size_t length)
{
    void *at = dma_whole(to, length);
    if (at)
        memcpy(at, bytes, length);
    return at != NULL;
}

/* ---- a polling client without interrupts ---- */

enum function_ready function_ready(const struct function *it, unsigned int vector)
{
    (void)it;
    (void)vector;
    return FUNCTION_ABSENT;
}

void function_message(struct function *it, unsigned int vector)
{
    (void)it;
    (void)vector;
}

bool function_has_line(const struct function *it)
{
    (void)it;
    return false;
}

bool function_line(struct function *it, uint32_t causes)
{
    (void)it;
    (void)causes;
    return false;
}

void function_line_after_access(struct function *it, uint32_t causes)
{
    (void)it;
    (void)causes;
}

bool watch_meets(struct watch *it, unsigned int function, bool is_write, uint32_t offset, uint32_t word)
{
    (void)it;
    (void)function;
    (void)is_write;
    (void)offset;
    (void)word;
    return false;
}

/* Reports what the server would log: a fault, or a refused access. */
void log_client(unsigned int client, enum log_kind kind, const char *format, ...)
{
    char line[LINE];
    va_list words;
    (void)client;
    (void)kind;
    va_start(words, format);
    vsnprintf(line, sizeof line, format, words);
    va_end(words);
    problem("%s", line);
}
