/* Writes a script of everything requested from the device: register accesses, memory, frames and steps. Each is
   followed by its result as an `expect` if the script language can state it, and by its actor as a comment. */
#include <inttypes.h>
#include <string.h>

#include "files.h"
#include "names.h"
#include "places.h"
#include "words.h"

enum { MOST_INSTRUCTIONS = 4096, MOST_STRINGS = 1024, MOST_BLOCKS = 256, CHECKED = 64 };

/* Ends the script here, before the run ends. */
static void refuse(struct script *script, const char *why)
{
    script->unfit = why;
    fprintf(script->file, "# CUT: %s\n", why);
}

void nicxi_script_begin(struct script *script, FILE *file, const struct origin *origin)
{
    char words[sizeof origin->result->words];
    const nicx_scenario *scenario = nicxi.scenario;
    memset(script, 0, sizeof *script);
    script->file = file;
    nicxi_plain(origin->result->words, words, sizeof words);
    fprintf(file, "# %s: %s\n", nicxi_outcome_name(origin->result->outcome), words);
    fprintf(file, "# The device's events in a schedule of scenario %s, by: nicbench run --vfs %u --fifo %u\n",
            scenario->name, scenario->vfs, scenario->fifo);
    if (scenario->blocks > MOST_BLOCKS)
        refuse(script, "a script has at most 256 blocks, but the scenario uses more");
}

void nicxi_script_end(FILE *file, const nicx_result *result)
{
    char words[sizeof result->words];
    nicxi_plain(result->words, words, sizeof words);
    fprintf(file, "# FAILED %s: %s\n", nicxi_outcome_name(result->outcome), words);
}

/* Counts an instruction. Returns whether the script has room for it. */
static bool has_room(struct script *script)
{
    if (!script->unfit && script->instructions == MOST_INSTRUCTIONS)
        refuse(script, "a script has at most 4,096 instructions, but the run needs more");
    script->instructions += !script->unfit;
    return !script->unfit;
}

/* Writes a line with its actor. */
static void line(struct script *script, uint16_t actor, const char *text)
{
    char name[96];
    if (has_room(script))
        fprintf(script->file, "%-28s # %s%s%s\n", text, actor == NOBODY ? "bring-up" : nicx_actor_name(actor, name),
                *script->where ? ": at " : "", script->where);
}

/* Writes a device step or a link change, with its result. */
static void with_reply(struct script *script, uint16_t actor, const char *text, const struct step *step)
{
    char reply[MOST_WORDS];
    if (!has_room(script))
        return;
    const char *who = actor == NOBODY ? "bring-up" : step->kind >= STEP_ARRIVE ? "link" : "device";
    fprintf(script->file, "%-28s # %s: %s\n", text, who, nicxi_reply(step, reply));
}

static void expect(struct script *script, uint32_t word, uint32_t mask)
{
    if (has_room(script))
        fprintf(script->file, "expect 0x%08" PRIx32 " 0x%08" PRIx32 "\n", word & mask, mask);
}

/* Writes bytes as a named string, before the line that uses it. Returns the number in its name. */
static uint32_t data(struct script *script, const uint8_t *bytes, size_t length)
{
    if (!script->unfit && script->strings == MOST_STRINGS)
        refuse(script, "a script has at most 1,024 data strings, but the run needs more");
    if (script->unfit)
        return 0;
    fprintf(script->file, "data d%" PRIu32 " ", script->strings);
    for (size_t k = 0; k < length; k++)
        fprintf(script->file, "%02x", bytes[k]);
    fputc('\n', script->file);
    return script->strings++;
}

/* --- memory, in 16-byte units --- */

static void peek(struct script *script, uint16_t actor, const struct step *step)
{
    char text[64];
    uint32_t length = step->length < CHECKED ? step->length : CHECKED;
    for (uint64_t at = step->bus & ~(uint64_t)3; at < step->bus + length; at += 4) {
        uint8_t bytes[4];
        uint32_t word = 0, mask = 0;
        if (nic_dma_read(&nicxi.device, at, bytes, 4) != NIC_DONE)
            return;
        for (int k = 0; k < 4; k++) {
            word |= (uint32_t)bytes[k] << 8 * k;
            if (at + (unsigned)k >= step->bus && at + (unsigned)k < step->bus + length)
                mask |= 0xFFu << 8 * k;
        }
        snprintf(text, sizeof text, "peek 0x%" PRIx64 " %u", at & ~(uint64_t)15, (unsigned)(at / 4 % 4));
        line(script, actor, text);
        expect(script, word, mask);
    }
}

static void poke(struct script *script, uint16_t actor, const struct step *step)
{
    char text[64];
    for (uint64_t at = step->bus & ~(uint64_t)15; at < step->bus + step->length; at += 16) {
        uint8_t bytes[16];
        if (nic_dma_read(&nicxi.device, at, bytes, 16) != NIC_DONE)
            return;
        uint32_t number = data(script, bytes, 16);
        snprintf(text, sizeof text, "poke 0x%" PRIx64 " d%" PRIu32, at, number);
        line(script, actor, text);
    }
}

/* --- each step --- */

/* The script language has no names for a virtual function's offsets, so the register's name follows the actor's in the
   comment. */
static void of_function(struct script *script, uint16_t actor, const char *text, const char *name)
{
    char room[96];
    const char *who = actor == NOBODY ? "bring-up" : nicx_actor_name(actor, room);
    if (has_room(script))
        fprintf(script->file, "%-28s # %s: %s%s%s\n", text, who, name, *script->where ? ", at " : "", script->where);
}

static void access_registers(struct script *script, uint16_t actor, const struct step *step)
{
    char text[64], name[MOST_NAME], number[MOST_NAME];
    unsigned vf = step->vf, address = step->address;
    snprintf(number, sizeof number, step->word < 10 ? "%" PRIu32 : "0x%" PRIx32, step->word);
    switch (step->kind) {
    case STEP_READ: snprintf(text, sizeof text, "r %s", nicxi_register(address, name)); break;
    case STEP_VF_READ: snprintf(text, sizeof text, "vr %u 0x%x", vf, address); break;
    case STEP_WRITE: snprintf(text, sizeof text, "w %s %s", nicxi_register(address, name), number); break;
    default: snprintf(text, sizeof text, "vw %u 0x%x %s", vf, address, number); break;
    }
    if (step->kind == STEP_VF_READ || step->kind == STEP_VF_WRITE)
        of_function(script, actor, text, nicxi_offset(address, name));
    else
        line(script, actor, text);
    if (step->kind == STEP_READ || step->kind == STEP_VF_READ)
        expect(script, step->word, 0xFFFFFFFFu);
}

static void device_step(struct script *script, uint16_t actor, const struct step *step)
{
    char text[64];
    const struct frame *frame = &nicxi.frames[step->of];
    switch (step->kind) {
    case STEP_RX: snprintf(text, sizeof text, "rx"); break;
    case STEP_TX: snprintf(text, sizeof text, "tx %u", step->of); break;
    case STEP_RX_ENABLE: snprintf(text, sizeof text, "qstep rx %u", step->of); break;
    case STEP_TX_ENABLE: snprintf(text, sizeof text, "qstep tx %u", step->of); break;
    case STEP_INT:
        if (step->of)
            snprintf(text, sizeof text, "int %u", step->of - 1u);
        else
            snprintf(text, sizeof text, "int pf");
        break;
    case STEP_EEPROM: snprintf(text, sizeof text, "eestep"); break;
    case STEP_LINK: snprintf(text, sizeof text, "link %s", step->word ? "up" : "down"); break;
    default: snprintf(text, sizeof text, "arrive d%" PRIu32, data(script, frame->bytes, frame->length)); break;
    }
    with_reply(script, actor, text, step);
}

/* A step of the driver's own doesn't involve the device, and is written as a comment. */
static void own_step(struct script *script, uint16_t actor, const struct step *step)
{
    char name[96], description[MOST_DESCRIPTION];
    if (script->unfit)
        return;
    nicxi_tell_step(actor, step, description, sizeof description);
    fprintf(script->file, "%-28s # %s: %s\n", "", nicx_actor_name(actor, name), description);
}

void nicxi_script_step(struct script *script, uint16_t actor, const struct step *step)
{
    char text[32];
    struct place place;
    nicxi_place(actor, step, &place);
    nicxi_place_words(&place, script->where);
    switch (step->kind) {
    case STEP_LOCAL:
    case STEP_VALUE:
    case STEP_START: own_step(script, actor, step); break;
    case STEP_READ:
    case STEP_WRITE:
    case STEP_VF_READ:
    case STEP_VF_WRITE: access_registers(script, actor, step); break;
    case STEP_PEEK:
    case STEP_POKE:
        if (step->is_kept || step->older || step->is_overtaken)
            own_step(script, actor, step); /* the device doesn't see such an access */
        else if (step->kind == STEP_PEEK)
            peek(script, actor, step);
        else
            poke(script, actor, step);
        break;
    case STEP_STORE:
        if (step->is_own)
            own_step(script, actor, step);
        else
            poke(script, actor, step);
        break;
    case STEP_LEND:
    case STEP_TAKE:
        snprintf(text, sizeof text, "%s %" PRIu32, step->kind == STEP_LEND ? "lend" : "unlend", step->address);
        line(script, actor, text);
        break;
    default: device_step(script, actor, step); break;
    }
}
