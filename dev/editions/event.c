#include "event.h"

#include <stddef.h>
#include <stdio.h>
#include <string.h>

enum { FILL = 0xA5 };

/* --- the calls --- */

#define CARD (&side->cards[event->card])
#define SNAPSHOT (&side->kept[event->kept])
#define OUTCOME_OF (&answer->outcome[0])
#define CALL(name, ...)                                                                                                \
    static uint8_t make_##name(struct side *side, const struct event *event, struct answer *answer)                    \
    {                                                                                                                  \
        (void)answer;                                                                                                  \
        return side->lib.name(__VA_ARGS__);                                                                            \
    }

CALL(nic_note, CARD, (const char *)event->given)
CALL(nic_restore, CARD, SNAPSHOT)
CALL(nic_read32, CARD, event->number, &answer->word)
CALL(nic_write32, CARD, event->number, event->word)
CALL(nic_vf_read32, CARD, event->vf, event->number, &answer->word)
CALL(nic_vf_write32, CARD, event->vf, event->number, event->word)
CALL(nic_peek32, CARD, event->number, &answer->word)
CALL(nic_vf_peek32, CARD, event->vf, event->number, &answer->word)
CALL(nic_vf_address, event->word, event->vf, event->number, &answer->word)
CALL(nic_lend, CARD, event->number)
CALL(nic_take, CARD, event->number)
CALL(nic_lend_all, CARD)
CALL(nic_lend_memory, CARD, event->bus, side->own[event->card % CARDS][event->own], event->length)
CALL(nic_unlend_memory, CARD, event->bus, event->length)
CALL(nic_dma_read, CARD, event->bus, answer->bytes, event->length)
CALL(nic_dma_write, CARD, event->bus, event->given, event->length)
CALL(nic_arrive, CARD, event->given, event->length, OUTCOME_OF)
CALL(nic_collect, CARD, answer->bytes, event->length, OUTCOME_OF)
CALL(nic_link, CARD, event->flag)
CALL(nic_rx_step, CARD, OUTCOME_OF)
CALL(nic_tx_step, CARD, event->queue, OUTCOME_OF)
CALL(nic_queue_step, CARD, event->flag, event->queue, OUTCOME_OF)
CALL(nic_eeprom_step, CARD, OUTCOME_OF)
CALL(nic_int_step, CARD, event->vf, OUTCOME_OF)
CALL(nic_settle, CARD, event->queue, answer->outcome, event->length, &answer->count)
CALL(nic_next_step, CARD, &answer->where, OUTCOME_OF)
CALL(nic_install_image, CARD, event->given, event->length)
CALL(nic_install_text, CARD, event->given, event->length, &answer->line)
CALL(nic_hash, event->given, event->given + 40, event->length, &answer->word)

static uint8_t make_nic_record(struct side *side, const struct event *event, struct answer *answer)
{
    char path[512];
    (void)answer;
    snprintf(path, sizeof path, "%s/recording", side->folder);
    return side->lib.nic_record(event->flag ? path : NULL);
}

static uint8_t make_nic_new(struct side *side, const struct event *event, struct answer *answer)
{
    void *before = answer, *device = before;
    uint8_t status = side->lib.nic_new(event->vf, event->queue, event->number, &device);
    answer->is_made = device != before;
    if (answer->is_made)
        CARD->device = device;
    return status;
}

static uint8_t make_nic_free(struct side *side, const struct event *event, struct answer *answer)
{
    (void)answer;
    side->lib.nic_free(*CARD);
    CARD->device = NULL;
    return NIC_DONE;
}

static uint8_t make_nic_snapshot(struct side *side, const struct event *event, struct answer *answer)
{
    nic_kept before = {answer}, kept = before;
    uint8_t status = side->lib.nic_snapshot(CARD, &kept);
    answer->is_made = kept.kept != before.kept;
    if (answer->is_made)
        *SNAPSHOT = kept;
    return status;
}

static uint8_t make_nic_free_snapshot(struct side *side, const struct event *event, struct answer *answer)
{
    (void)answer;
    side->lib.nic_free_snapshot(*SNAPSHOT);
    SNAPSHOT->kept = NULL;
    return NIC_DONE;
}

static uint8_t make_nic_next_out(struct side *side, const struct event *event, struct answer *answer)
{
    answer->count = side->lib.nic_next_out(CARD);
    return NIC_DONE;
}

static uint8_t make_nic_why(struct side *side, const struct event *event, struct answer *answer)
{
    answer->count = side->lib.nic_why(CARD, (char *)answer->bytes, event->length);
    return NIC_DONE;
}

typedef uint8_t maker(struct side *, const struct event *, struct answer *);

static maker *const makers[CALL_COUNT] = {
#define MAKER(name) make_##name,
    CALLS(MAKER)
#undef MAKER
};

static const char *const names[CALL_COUNT] = {
#define NAME(name) #name,
    CALLS(NAME)
#undef NAME
};

const char *event_name(enum call call)
{
    return names[call];
}

/* --- answers --- */

/* Returns the number of bytes of an answer that are filled before the call and compared after it. */
static size_t size_of(const struct event *event)
{
    return offsetof(struct answer, bytes) + event->room;
}

static void fill(const struct event *event, struct answer *answer)
{
    memset(answer, FILL, size_of(event));
    answer->status = answer->is_made = 0;
    answer->where = (nic_settling){event->queue, (uint16_t)event->number};
}

/* Clears the padding after a report's last field. */
static void clear_ends(struct answer *answer)
{
    size_t end = offsetof(nic_outcome, vector) + sizeof answer->outcome->vector;
    for (size_t at = 0; at < OUTCOMES; at++)
        memset((uint8_t *)&answer->outcome[at] + end, FILL, sizeof(nic_outcome) - end);
}

void event_make(struct side *side, const struct event *event, struct answer *answer)
{
    fill(event, answer);
    answer->status = makers[event->call](side, event, answer);
    clear_ends(answer);
}

void event_refused(const struct event *event, uint8_t status, struct answer *answer)
{
    fill(event, answer);
    answer->status = status;
    if (event->call == CALL_nic_settle)
        answer->count = 0;
    if (event->call == CALL_nic_install_text)
        answer->line = 0;
}

bool event_alike(const struct event *event, const struct answer *one, const struct answer *other)
{
    return memcmp(one, other, size_of(event)) == 0;
}

static uint64_t digest_bytes(uint64_t digest, const void *bytes, size_t length)
{
    const uint8_t *at = bytes;
    for (size_t k = 0; k < length; k++)
        digest = (digest ^ at[k]) * UINT64_C(0x100000001B3);
    return digest;
}

static uint64_t digest_number(uint64_t digest, uint64_t number)
{
    return (digest ^ number) * UINT64_C(0x9E3779B97F4A7C15) >> 1;
}

/* Digests a report by its fields instead of its layout, so that the digest is the same on each machine. */
static uint64_t digest_outcome(uint64_t digest, const nic_outcome *outcome)
{
    const uint64_t fields[] = {outcome->desc, outcome->at,    outcome->len, outcome->bus,    outcome->queue,
                               outcome->slot, outcome->group, outcome->of,  outcome->status, outcome->step,
                               outcome->end,  outcome->back,  outcome->why, outcome->vector};
    for (size_t k = 0; k < sizeof fields / sizeof *fields; k++)
        digest = digest_number(digest, fields[k]);
    return digest;
}

uint64_t event_digest(uint64_t digest, const struct event *event, const struct answer *answer)
{
    size_t count = event->call == CALL_nic_settle && answer->count < OUTCOMES ? answer->count : 1;
    digest = digest_number(digest, answer->status);
    digest = digest_number(digest, answer->word);
    digest = digest_number(digest, (uint32_t)answer->count);
    digest = digest_number(digest, (uint32_t)answer->line);
    for (size_t k = 0; k < count; k++)
        digest = digest_outcome(digest, &answer->outcome[k]);
    return digest_bytes(digest, answer->bytes, event->room);
}

/* --- as text --- */

static void print_bytes(const uint8_t *bytes, size_t length)
{
    for (size_t at = 0; at < length && at < 64; at++)
        printf("%02x", bytes[at]);
    printf("%s\n", length > 64 ? ".." : "");
}

void event_print(const struct event *event)
{
    printf("%s card %u kept %u vf %u own %u flag %d queue %u number 0x%x word 0x%x bus 0x%llx length %llu\n",
           event_name(event->call), event->card, event->kept, event->vf, event->own, event->flag, event->queue,
           (unsigned)event->number, (unsigned)event->word, (unsigned long long)event->bus,
           (unsigned long long)event->length);
    if (event->length) {
        printf("  given ");
        print_bytes(event->given, event->length < GIVEN ? event->length : GIVEN);
    }
}

void event_print_answer(const struct event *event, const struct answer *answer)
{
    size_t count = answer->count < OUTCOMES ? answer->count : 1;
    printf("  %s, word 0x%x, count %llu, line %llu\n", nic_status_name(answer->status), (unsigned)answer->word,
           (unsigned long long)answer->count, (unsigned long long)answer->line);
    for (size_t k = 0; k < count; k++) {
        printf("    report ");
        print_bytes((const uint8_t *)&answer->outcome[k], sizeof(nic_outcome));
    }
    if (event->room) {
        printf("    bytes ");
        print_bytes(answer->bytes, event->room);
    }
}
