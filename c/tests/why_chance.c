/* Compares what nic_why says with what the device then does: on random controllers, a step has something to do exactly
   if nic_why says so. */
#include <string.h>

#include "set_up.h"

enum { RUNS = 400, CALLS = 60, ROOM = 16384 };

static char text[ROOM];
static unsigned long asked;

/* Returns whether the explanation contains a line with this beginning and end. */
static bool says(const char *begin, const char *end)
{
    for (const char *line = text; *line; line = strchr(line, '\n') + 1) {
        size_t length = (size_t)(strchr(line, '\n') - line);
        bool begins = length >= strlen(begin) && !strncmp(line, begin, strlen(begin));
        if (begins && length >= strlen(end) && !strncmp(line + length - strlen(end), end, strlen(end)))
            return true;
    }
    return false;
}

/* Runs a step, and restores the snapshot if the step did anything. So each step starts from the same state. */
static uint8_t step(nic *n, const nic_kept *kept, uint8_t kind, uint16_t of)
{
    nic_outcome outcome;
    uint8_t status;
    switch (kind) {
    case NIC_RX_ENABLE: status = nic_queue_step(n, false, of, &outcome); break;
    case NIC_TX_ENABLE: status = nic_queue_step(n, true, of, &outcome); break;
    case NIC_EEPROM: status = nic_eeprom_step(n, &outcome); break;
    case NIC_TRANSMIT: status = nic_tx_step(n, of, &outcome); break;
    case NIC_RECEIVE: status = nic_rx_step(n, &outcome); break;
    default: status = nic_int_step(n, (uint8_t)of, &outcome); break;
    }
    asked++;
    if (status != NIC_IDLE)
        ANSWERS(NIC_DONE, nic_restore(n, kept));
    return status;
}

static bool switches(nic *n, const nic_kept *kept, bool tx, uint16_t queue)
{
    char end[32];
    snprintf(end, sizeof end, "no `qstep %s %u` followed", tx ? "tx" : "rx", queue);
    bool is_due = step(n, kept, tx ? NIC_TX_ENABLE : NIC_RX_ENABLE, queue) == NIC_DONE;
    CHECK(says("", end) == is_due);
    return is_due;
}

static void sends(nic *n, const nic_kept *kept, uint16_t queue)
{
    char begin[16], end[32];
    snprintf(begin, sizeof begin, "tx %u: ", queue);
    snprintf(end, sizeof end, "but no `tx %u` followed", queue);
    uint8_t status = step(n, kept, NIC_TRANSMIT, queue);
    bool is_done = status == NIC_ADVANCED || status == NIC_SENT;
    CHECK(!says(begin, end) || is_done);
    CHECK(says(begin, "") || status == NIC_IDLE);
    CHECK(status != NIC_FAULT || says(begin, ""));
}

static void receives(nic *n, const nic_kept *kept)
{
    uint8_t status = step(n, kept, NIC_RECEIVE, 0);
    CHECK(!says("rx: ", "but no `rx` followed") || status == NIC_WROTE);
    CHECK(says("rx: ", "") || status == NIC_IDLE);
}

static void interrupts(nic *n, const nic_kept *kept, uint8_t group)
{
    char end[32] = "but no `int pf` followed";
    if (group)
        snprintf(end, sizeof end, "but no `int %u` followed", group - 1u);
    CHECK(says("int", end) == (step(n, kept, NIC_INTERRUPT, group) == NIC_MESSAGE));
}

static void try_all(nic *n)
{
    nic_kept kept = {NULL};
    unsigned due = 0;
    ANSWERS(NIC_DONE, nic_snapshot(n, &kept));
    CHECK(nic_why(n, text, sizeof text) < sizeof text);
    for (uint16_t queue = 0; queue < QUEUES; queue++) {
        due += switches(n, &kept, false, queue) + switches(n, &kept, true, queue);
        sends(n, &kept, queue);
    }
    receives(n, &kept);
    for (uint8_t group = 0; group < 4; group++)
        interrupts(n, &kept, group);
    CHECK(says("eestep: ", "`eestep` followed") == (step(n, &kept, NIC_EEPROM, 0) == NIC_DONE));
    nic_drop_snapshot(&kept);
}

static void run(void)
{
    nic n;
    nic_outcome outcomes[64];
    size_t count;
    open_all(&n, 1, (uint8_t)below(3));
    for (int k = 0; k < CALLS; k++) {
        one_call(&n, 1);
        if (below(6) == 0)
            try_all(&n);
        if (below(12) == 0)
            nic_settle(&n, (uint16_t)below(QUEUES + 1), outcomes, 64, &count);
    }
    nic_write32(&n, NIC_CTRL, 0);
    try_all(&n);
    nic_close(&n);
}

int main(void)
{
    for (int k = 0; k < RUNS; k++)
        run();
    printf("%lu steps as predicted\n", asked);
    return 0;
}
