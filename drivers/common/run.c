#include "run.h"

#include <errno.h>
#include <inttypes.h>
#include <string.h>

#include "absent.h"
#include "strays.h"
#include "verdict.h"

#define REASONS 4096 /* bytes of the text of nic_why */

struct bus *run_bus;
struct dma_memory run_memory;

static void on_problem(void *of, const char *what)
{
    (void)of;
    problem("%s", what);
}

/* Prints a faulty descriptor, which may have been written after the device read it. */
static void print_descriptor(bool is_transmit, const nic_outcome *outcome)
{
    uint16_t queue = outcome->queue;
    uint64_t ring = bus_peek(run_bus, is_transmit ? NIC_TDBAH(queue) : NIC_RDBAH(queue));
    ring = ring << 32 | bus_peek(run_bus, is_transmit ? NIC_TDBAL(queue) : NIC_RDBAL(queue));
    uint64_t at = ring + BUS_SLOT * (uint64_t)outcome->slot, halves[2];
    const void *bytes = memory_at(&run_memory, at, sizeof halves);
    if (!bytes || outcome->why == NIC_FAULT_OUTSIDE)
        return;
    memcpy(halves, bytes, sizeof halves);
    fprintf(stderr, "bus: the descriptor at 0x%" PRIx64 " is ", at);
    if (halves[0] || halves[1])
        fprintf(stderr, "0x%016" PRIx64 " 0x%016" PRIx64 "\n", halves[0], halves[1]);
    else
        fprintf(stderr,
                "all 0: the tail moved past it before it was written, or the ring has another base or length\n");
}

/* Prints a fault, and its descriptor. */
static void on_fault(void *of, bool is_transmit, const nic_outcome *outcome)
{
    (void)of;
    bus_print_fault(is_transmit, outcome);
    print_descriptor(is_transmit, outcome);
}

bool run_open(const struct bus_options *options, bool is_copied)
{
    struct bus_options own = *options;
    memory_begin(&run_memory, is_copied);
    memory_calls(&run_memory, &own.calls);
    own.calls.problem = on_problem;
    if (!own.calls.fault)
        own.calls.fault = on_fault;
    run_bus = run_memory.bus = bus_open(&own);
    return run_bus != NULL;
}

void run_close(void)
{
    bus_close(run_bus);
    run_bus = run_memory.bus = NULL;
}

void run_tell_counts(void)
{
    const struct bus_counts *counts = bus_counts(run_bus);
    printf("in all         reads    writes   ms of waits, skipped\n");
    for (unsigned int phase = 0; bus_phase_name(run_bus, phase); phase++)
        printf("  %-8s  %8" PRIu64 "  %8" PRIu64 "  %8" PRIu64 "\n", bus_phase_name(run_bus, phase),
               counts->in[phase].reads, counts->in[phase].writes, counts->in[phase].waited / 1000);
    printf("the device filled %" PRIu64 " descriptors, fetched %" PRIu64 ", enabled or disabled %" PRIu64
           " queue sides,\n"
           "  read %" PRIu64 " EEPROM words",
           counts->receive_steps, counts->transmit_steps, counts->enables, counts->eeprom_words);
    if (run_memory.to_device || run_memory.to_driver)
        printf("; %" PRIu64 " bytes were copied to it, %" PRIu64 " from it", run_memory.to_device,
               run_memory.to_driver);
    printf("\n");
}

/* Prints the lines that begin with `first`, or all others. */
static void tell_lines(const char *text, const char *first, bool begins)
{
    for (size_t length; *text; text += length + (text[length] == '\n')) {
        length = strcspn(text, "\n");
        if ((*first && strncmp(text, first, strlen(first)) == 0) == begins)
            fprintf(stderr, "why: %.*s\n", (int)length, text);
    }
}

void run_tell_why(const char *first)
{
    static char text[REASONS];
    nic_why(bus_device(run_bus), text, sizeof text);
    tell_lines(text, first, true);
    tell_lines(text, first, false);
}

void run_check_counts(uint64_t drops_expected, uint64_t faults_expected)
{
    const struct bus_counts *counts = bus_counts(run_bus);
    if (counts->faults != faults_expected || run_memory.refusals || counts->drops != drops_expected)
        wrong_total("faults: %" PRIu64 ", frames dropped by receive steps: %" PRIu64 ", copies refused: %" PRIu64,
                    counts->faults, counts->drops, run_memory.refusals);
    if (problems())
        run_tell_why("");
    absent_tell(run_bus, stdout, "", "");
    if (!counts->frames_in && !counts->frames_out)
        printf("no frame was received or sent\n");
}

bool run_save_strays(const char *name)
{
    FILE *file = fopen(name, "w");
    if (file)
        strays_write(run_bus, file, NULL);
    if (!file || fclose(file) != 0)
        problem("can't write %s: %s", name, strerror(errno));
    return file != NULL;
}
