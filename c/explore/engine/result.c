/* The file of a result: lines with a name and its values, in a fixed order, each checked when read. The last line is a
   checksum of all bytes before it, so a truncated or changed file is refused. One function both writes and reads a
   field: it takes the value to write, and returns that value or the one it read. */
#include "result.h"

#include <inttypes.h>
#include <stdarg.h>
#include <stdio.h>
#include <stdlib.h>
#include <string.h>

#include "files.h"
#include "weak.h"
#include "words.h"

enum { VERSION = 1, MOST_LINE = 512, RANKS_OF_LINE = 64 };
#define MOST_COUNT (UINT64_C(1) << 46)
#define MOST_RUNS (UINT64_C(1) << 62)
#define FIRST_SUM UINT64_C(0xCBF29CE484222325)

/* A file being written, or read. When reading, the first fault is kept, and nothing more is read after it. */
struct form {
    FILE *file;
    bool writes;
    uint32_t line;
    uint64_t sum;
    char text[MOST_LINE], fault[2 * MOST_LINE];
};

static uint64_t summed(uint64_t sum, const char *text)
{
    for (; *text; text++)
        sum = (sum ^ (unsigned char)*text) * UINT64_C(0x100000001B3);
    return sum;
}

/* --- lines --- */

static void put(struct form *it, const char *form, ...)
{
    char line[MOST_LINE];
    va_list list;
    va_start(list, form);
    vsnprintf(line, sizeof line, form, list);
    va_end(list);
    it->sum = summed(it->sum, line);
    fputs(line, it->file);
}

static void wrong(struct form *it, const char *form, ...)
{
    va_list list;
    if (*it->fault)
        return;
    va_start(list, form);
    vsnprintf(it->fault, sizeof it->fault, form, list);
    va_end(list);
}

/* Reads a line, which must be printable ASCII and end with a newline. */
static bool next_line(struct form *it)
{
    it->line++;
    if (!fgets(it->text, sizeof it->text, it->file)) {
        wrong(it, "the file is truncated");
        return false;
    }
    size_t length = strlen(it->text);
    if (!length || it->text[length - 1] != '\n') {
        wrong(it, "the line has no newline, or is longer than %d bytes", MOST_LINE - 2);
        return false;
    }
    for (size_t k = 0; k + 1 < length; k++)
        if (it->text[k] < ' ' || it->text[k] > '~') {
            wrong(it, "the line isn't printable ASCII");
            return false;
        }
    return true;
}

/* Returns the rest of the next line, which must have this name; "" after a fault. */
static const char *field(struct form *it, const char *name)
{
    size_t length = strlen(name);
    if (*it->fault || !next_line(it))
        return "";
    it->sum = summed(it->sum, it->text);
    it->text[strlen(it->text) - 1] = 0;
    if (!strncmp(it->text, name, length) && it->text[length] == ' ')
        return it->text + length + 1;
    wrong(it, "expected \"%s\" but found \"%.40s\"", name, it->text);
    return "";
}

/* --- fields --- */

static const char *text(struct form *it, const char *name, const char *value)
{
    if (!it->writes)
        return field(it, name);
    put(it, "%s %s\n", name, value);
    return value;
}

static uint64_t number_in(struct form *it, const char *name, const char *text, uint64_t most)
{
    uint64_t number = 0;
    if (*it->fault)
        return 0;
    for (const char *at = text; *at || at == text; at++) {
        unsigned digit = (unsigned char)*at - (unsigned)'0';
        if (digit > 9 || number > (most - digit) / 10 || digit > most || (at > text && *text == '0')) {
            wrong(it, "%s: \"%.40s\" isn't a number from 0 to %" PRIu64, name, text, most);
            return 0;
        }
        number = 10 * number + digit;
    }
    return number;
}

static uint64_t number(struct form *it, const char *name, uint64_t value, uint64_t most)
{
    if (!it->writes)
        return number_in(it, name, field(it, name), most);
    put(it, "%s %" PRIu64 "\n", name, value);
    return value;
}

static uint32_t number32(struct form *it, const char *name, uint32_t value, uint32_t most)
{
    return (uint32_t)number(it, name, value, most);
}

static bool flag(struct form *it, const char *name, bool value)
{
    return number(it, name, value, 1) != 0;
}

static void words(struct form *it, const char *name, char *room, size_t size)
{
    char plain[256];
    nicxi_plain(room, plain, sizeof plain);
    const char *got = text(it, name, plain);
    if (strlen(got) >= size)
        wrong(it, "%s: longer than %zu bytes", name, size - 1);
    else
        memcpy(room, got, strlen(got) + 1);
}

/* Writes or reads a count. A count that is read must equal the scenario's. */
static void same(struct form *it, const char *name, uint64_t wanted)
{
    uint64_t got = number(it, name, wanted, MOST_COUNT);
    if (!*it->fault && got != wanted)
        wrong(it, "%s: the file has %" PRIu64 ", but the scenario has %" PRIu64, name, got, wanted);
}

static enum strategy strategy(struct form *it, const char *name, enum strategy value)
{
    const char *got = text(it, name, nicxi_strategy_name(value));
    for (int k = MIXED; k <= EXHAUSTIVE; k++)
        if (!strcmp(got, nicxi_strategy_name((enum strategy)k)))
            return (enum strategy)k;
    wrong(it, "%s: unknown strategy \"%.40s\"", name, got);
    return MIXED;
}

static uint8_t outcome(struct form *it, uint8_t value)
{
    const char *got = text(it, "outcome", nicxi_outcome_name(value));
    if (it->writes)
        return value;
    for (value = NICX_END; value <= NICX_HANG; value++)
        if (!strcmp(nicxi_outcome_name(value), got))
            return value;
    wrong(it, "outcome: unknown outcome \"%.40s\"", got);
    return value;
}

/* --- parts of a result --- */

static void options(struct form *it, struct options *options)
{
    options->strategy = strategy(it, "strategy", options->strategy);
    options->seed = number(it, "seed", options->seed, UINT64_MAX);
    options->first = number(it, "first", options->first, MOST_RUNS);
    options->runs = number(it, "runs", options->runs, MOST_RUNS);
    options->depth = number32(it, "depth", options->depth, 16);
    options->preemptions = number32(it, "preemptions", options->preemptions, UNBOUNDED);
    options->no_sleep = !flag(it, "sleep", !options->no_sleep);
    if (number(it, "weak", nicxi_memory() - STRONG, TSO - STRONG) != (uint64_t)(nicxi_memory() - STRONG))
        wrong(it, "weak: the result is for a different memory model: choose it with --memory");
    options->shard = number32(it, "shard", options->shard + 1, 65536) - 1;
    options->shards = number32(it, "shards", options->shards, 65536);
    if (!*it->fault && options->shard >= options->shards)
        wrong(it, "no shard %u among %u", (unsigned)options->shard + 1, (unsigned)options->shards);
}

static void totals(struct form *it, struct totals *totals)
{
    totals->runs = number(it, "schedules", totals->runs, MOST_COUNT);
    totals->points = number(it, "points", totals->points, MOST_COUNT);
    totals->seconds = (double)number(it, "milliseconds", (uint64_t)(totals->seconds * 1000), MOST_COUNT) / 1000;
    totals->is_whole = flag(it, "whole", totals->is_whole);
    totals->notes.strays = number32(it, "strays", totals->notes.strays, UINT32_MAX);
    words(it, "stray", totals->notes.stray, sizeof totals->notes.stray);
    totals->notes.beyond = number32(it, "beyond", totals->notes.beyond, 128);
}

static bool thread(struct form *it, const char *name, const struct thread *thread, bool ran)
{
    char value[96];
    snprintf(value, sizeof value, "%d %s", ran, thread->name);
    const char *got = text(it, name, value);
    if (*it->fault)
        return false;
    if ((*got != '0' && *got != '1') || got[1] != ' ' || strcmp(got + 2, thread->name) != 0)
        wrong(it, "%s: the file has \"%.80s\", but the scenario has %s", name, got, thread->name);
    return *got == '1';
}

static void queue(struct form *it, struct coverage *coverage, uint32_t k)
{
    uint64_t bits =
        coverage->is_on[0][k] | coverage->acted[0][k] << 1 | coverage->is_on[1][k] << 2 | coverage->acted[1][k] << 3;
    bits = number(it, "queue", bits, 15);
    coverage->is_on[0][k] = bits & 1;
    coverage->acted[0][k] = bits >> 1 & 1;
    coverage->is_on[1][k] = bits >> 2 & 1;
    coverage->acted[1][k] = bits >> 3 & 1;
}

/* Writes or reads what the scenario names, and whether it ran. Refuses another scenario's result. */
static void coverage(struct form *it, struct coverage *coverage)
{
    same(it, "tasks", nicxi.tasks);
    for (uint32_t k = 0; k < nicxi.tasks; k++)
        coverage->ran[k] = thread(it, "task", &nicxi.threads[k], coverage->ran[k]);
    same(it, "handlers", nicxi.handlers);
    for (uint32_t k = NICX_TASKS; k < NICX_TASKS + (uint32_t)nicxi.handlers; k++)
        coverage->ran[k] = thread(it, "handler", &nicxi.threads[k], coverage->ran[k]);
    same(it, "frames", nicxi.frame_count);
    for (uint32_t k = 0; k < nicxi.frame_count; k++)
        coverage->frames[k] = (uint16_t)number(it, "frame", coverage->frames[k], UINT16_MAX);
    same(it, "links", nicxi.link_count);
    for (uint32_t k = 0; k < nicxi.link_count; k++)
        coverage->links[k] = flag(it, "link", coverage->links[k]);
    same(it, "queues", nicxi.scenario->queues);
    for (uint32_t k = 0; k < nicxi.scenario->queues; k++)
        queue(it, coverage, k);
    same(it, "groups", nicxi.scenario->vfs + 1u);
    for (uint32_t k = 0; k <= nicxi.scenario->vfs; k++)
        coverage->messages[k] = (uint16_t)number(it, "messages", coverage->messages[k], UINT16_MAX);
    coverage->faults = number(it, "faults", coverage->faults, MOST_COUNT);
    words(it, "fault", coverage->fault, sizeof coverage->fault);
}

static void put_distinct(struct form *it, const struct distinct *distinct)
{
    bool is_exact = false;
    uint64_t count = distinct ? nicxi_distinct(distinct, &is_exact) : 0;
    put(it, "distinct %s\n", !distinct ? "none" : is_exact ? "exact" : "about");
    if (!distinct)
        return;
    put(it, "hashes %" PRIu64 "\n", is_exact ? count : 0);
    for (uint32_t k = 0; is_exact && k < 2 * EXACT; k++)
        if (distinct->table[k])
            put(it, "hash %016" PRIx64 "\n", distinct->table[k]);
    for (uint32_t k = 0; !is_exact && k < RANKS; k += RANKS_OF_LINE) {
        char text[2 * RANKS_OF_LINE + 1];
        for (uint32_t of = 0; of < RANKS_OF_LINE; of++)
            snprintf(text + 2 * of, 3, "%02x", distinct->ranks[k + of]);
        put(it, "ranks %s\n", text);
    }
}

/* Reads this many hexadecimal digits. */
static uint64_t hexadecimal(struct form *it, const char *name, const char *text, uint32_t digits)
{
    uint64_t value = 0;
    for (uint32_t k = 0; k < digits; k++) {
        const char *all = "0123456789abcdef", *at = text[k] ? strchr(all, text[k]) : NULL;
        if (!at) {
            wrong(it, "%s: expected %" PRIu32 " digits", name, digits);
            return 0;
        }
        value = value << 4 | (uint64_t)(at - all);
    }
    return value;
}

static void read_hashes(struct form *it, struct distinct *distinct, bool is_exact)
{
    uint64_t count = number(it, "hashes", 0, is_exact ? EXACT : 0), before = distinct->count;
    for (uint64_t k = 0; k < count && !*it->fault; k++) {
        const char *text = field(it, "hash");
        uint64_t bits = hexadecimal(it, "hash", text, 16);
        if (!*it->fault && (!bits || text[16]))
            wrong(it, "hash: \"%.40s\" isn't a hash", text);
        if (!*it->fault)
            nicxi_count_bits(distinct, bits);
    }
    if (!*it->fault && distinct->count - before != count)
        wrong(it, "hash: listed twice");
}

static void read_ranks(struct form *it, struct distinct *distinct)
{
    for (uint32_t k = 0; k < RANKS && !*it->fault; k += RANKS_OF_LINE) {
        const char *text = field(it, "ranks");
        if (strlen(text) != 2 * RANKS_OF_LINE)
            wrong(it, "ranks: expected %d", RANKS_OF_LINE);
        for (uint32_t of = 0; of < RANKS_OF_LINE && !*it->fault; of++) {
            uint64_t rank = hexadecimal(it, "ranks", text + 2 * of, 2);
            if (rank > 53)
                wrong(it, "ranks: %" PRIu64 " is above 53", rank);
            else
                distinct->ranks[k + of] = (uint8_t)rank;
        }
    }
    distinct->count = EXACT + 1;
}

static void read_distinct(struct form *it, struct result *result)
{
    const char *text = field(it, "distinct");
    bool is_exact = !strcmp(text, "exact");
    if (*it->fault || !strcmp(text, "none"))
        return;
    if (!is_exact && strcmp(text, "about") != 0) {
        wrong(it, "distinct: expected exact, about or none");
        return;
    }
    result->distinct = calloc(1, sizeof *result->distinct);
    if (!result->distinct) {
        wrong(it, "out of memory");
        return;
    }
    read_hashes(it, result->distinct, is_exact);
    if (!is_exact)
        read_ranks(it, result->distinct);
}

static void omitted(struct form *it, const char *name, bool *list, uint32_t count)
{
    uint64_t left = 0, of = 0;
    for (uint32_t k = 0; k < count; k++)
        left += list[k];
    left = number(it, name, left, count);
    for (uint64_t k = 0; k < left && !*it->fault; k++) {
        while (it->writes && !list[of])
            of++;
        of = number(it, "without", of, count - 1);
        if (!it->writes && !*it->fault && list[of])
            wrong(it, "without: %" PRIu64 " is listed twice", of);
        list[of] = true;
        of += it->writes;
    }
}

static uint16_t point(struct form *it, uint16_t actor)
{
    char name[96];
    const char *got = text(it, "point", it->writes ? nicx_actor_name(actor, name) : "");
    if (it->writes)
        return actor;
    actor = nicxi_actor_of(got);
    if (actor == NOBODY)
        wrong(it, "point: the scenario has no \"%.80s\"", got);
    return actor;
}

static void failure(struct form *it, struct failure *failure)
{
    failure->is_there = flag(it, "failure", failure->is_there);
    if (*it->fault || !failure->is_there)
        return;
    failure->result.outcome = outcome(it, failure->result.outcome);
    words(it, "words", failure->result.words, sizeof failure->result.words);
    failure->is_stale = flag(it, "stale", failure->is_stale);
    failure->is_trial = flag(it, "trial", failure->is_trial);
    failure->strategy = strategy(it, "by", failure->strategy);
    failure->preemptions = number32(it, "within", failure->preemptions, UNBOUNDED);
    failure->run = number(it, "run", failure->run, MOST_RUNS);
    omitted(it, "without-threads", failure->omitted.threads, MOST_THREADS);
    omitted(it, "without-frames", failure->omitted.frames, NICX_FRAMES);
    omitted(it, "without-links", failure->omitted.links, NICX_FRAMES);
    failure->cycle = number32(it, "cycle", failure->cycle, nicxi.most_points);
    failure->result.switches = number32(it, "switches", failure->result.switches, nicxi.most_points);
    failure->result.points = number32(it, "length", failure->result.points, nicxi.most_points);
    if (!*it->fault && failure->cycle > failure->result.points)
        wrong(it, "length: shorter than the cycle");
    if (!it->writes)
        failure->schedule = calloc((size_t)nicxi.most_points + 1, sizeof *failure->schedule);
    if (!failure->schedule)
        wrong(it, "out of memory");
    for (uint32_t k = 0; k < failure->result.points && !*it->fault; k++)
        failure->schedule[k] = point(it, failure->schedule[k]);
}

/* Writes or reads everything but the checksum. */
static void all(struct form *it, struct result *result)
{
    char name[64];
    snprintf(name, sizeof name, "%s", nicxi.scenario->name);
    if (number(it, "nicx-result", VERSION, 1000) != VERSION)
        wrong(it, "nicx-result: wrong version: this program reads version %d", VERSION);
    words(it, "scenario", name, sizeof name);
    if (!*it->fault && strcmp(name, nicxi.scenario->name) != 0)
        wrong(it, "the result is for scenario %s, but this program is %s", name, nicxi.scenario->name);
    options(it, &result->options);
    totals(it, &result->totals);
    coverage(it, &result->totals.coverage);
    if (it->writes)
        put_distinct(it, result->distinct);
    else
        read_distinct(it, result);
    failure(it, &result->failure);
}

bool nicxi_write_result(const char *path, const struct result *result)
{
    struct form it = {.file = fopen(path, "w"), .writes = true, .sum = FIRST_SUM};
    struct result same = *result;
    if (!it.file)
        return false;
    all(&it, &same);
    fprintf(it.file, "sum %016" PRIx64 "\n", it.sum);
    bool is_written = !ferror(it.file);
    return fclose(it.file) == 0 && is_written;
}

static void read_all(struct form *it, struct result *result)
{
    all(it, result);
    uint64_t sum = it->sum;
    const char *given = field(it, "sum");
    if (!*it->fault && (strlen(given) != 16 || hexadecimal(it, "sum", given, 16) != sum))
        wrong(it, "sum: doesn't match the lines before it");
    if (!*it->fault && fgetc(it->file) != EOF)
        wrong(it, "the file continues after its last line");
    if (ferror(it->file))
        wrong(it, "the file can't be read");
}

const char *nicxi_read_result(const char *path, struct result *result)
{
    struct form it = {.file = fopen(path, "r"), .sum = FIRST_SUM};
    memset(result, 0, sizeof *result);
    if (!it.file)
        return nicxi_why("%.500s: can't read the file", path);
    read_all(&it, result);
    fclose(it.file);
    return *it.fault ? nicxi_why("%.500s:%u: %.900s", path, (unsigned)it.line, it.fault) : NULL;
}

void nicxi_free_result(struct result *result)
{
    free(result->distinct);
    free(result->failure.schedule);
    memset(result, 0, sizeof *result);
}
