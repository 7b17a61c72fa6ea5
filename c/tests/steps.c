/* Compares nic_next_step with nic_settle: random events have the same results, order and recording. Then tests a driver
   that acts between two steps. `steps RECORDING` writes two recordings, RECORDING and RECORDING.2. */
#include <string.h>

#include "set_up.h"

enum { RUNS = 1500, CALLS = 60, MOST = 8192 };

static nic_outcome settled[MOST];

static bool is_same(const nic_outcome *a, const nic_outcome *b)
{
    bool numbers = a->desc == b->desc && a->at == b->at && a->len == b->len && a->bus == b->bus;
    bool places = a->queue == b->queue && a->slot == b->slot && a->group == b->group && a->of == b->of;
    bool step = a->status == b->status && a->step == b->step && a->end == b->end && a->back == b->back;
    return numbers && places && step && a->why == b->why && a->vector == b->vector;
}

/* Runs all steps of both controllers: with nic_settle on the first, with nic_next_step on the second. */
static size_t settle_both(nic n[2], uint16_t queues)
{
    nic_settling where = {queues, 0};
    nic_outcome outcome;
    size_t count, k = 0;
    memset(&outcome, 0xff, sizeof outcome);
    ANSWERS(NIC_DONE, nic_settle(&n[0], queues, settled, MOST, &count));
    while (nic_next_step(&n[1], &where, &outcome) == NIC_MORE) {
        CHECK(k < count && is_same(&settled[k], &outcome));
        memset(&outcome, 0xff, sizeof outcome);
        k++;
    }
    CHECK(k == count);
    ANSWERS(NIC_DONE, nic_next_step(&n[1], &where, &outcome));
    return count;
}

static size_t run(void)
{
    nic n[2];
    size_t count = 0;
    open_all(n, 2, (uint8_t)below(3));
    for (int k = 0; k < CALLS; k++) {
        one_call(n, 2);
        if (below(12) == 0)
            count += settle_both(n, (uint16_t)below(QUEUES + 1));
    }
    count += settle_both(n, 128);
    nic_close(&n[0]);
    nic_close(&n[1]);
    return count;
}

/* --- a driver that acts between two steps --- */

/* A message is delivered before the next step: a handler that masks the other cause gets only one message. */
static void handles(void)
{
    nic n;
    nic_outcome outcomes[8];
    nic_settling where = {1, 0};
    unsigned messages = 0;
    size_t count;
    for (int is_handled = 0; is_handled < 2; is_handled++) {
        ANSWERS(NIC_DONE, nic_open(&n, 0, FIFO, 1));
        nic_write32(&n, NIC_EIMS, 3);
        nic_write32(&n, NIC_EICS, 3);
        while (is_handled && nic_next_step(&n, &where, outcomes) == NIC_MORE) {
            CHECK(outcomes->status == NIC_MESSAGE && outcomes->step == NIC_INTERRUPT && outcomes->vector == 0);
            nic_write32(&n, NIC_EIMC, 3);
            messages++;
        }
        ANSWERS(NIC_DONE, nic_settle(&n, 1, outcomes, 8, &count));
        CHECK(count == (is_handled ? 0 : 2));
        nic_close(&n);
    }
    CHECK(messages == 1);
}

/* The struct may contain any position. Too many queues are refused, and nothing changes. */
static void borders(void)
{
    nic n;
    nic_outcome outcome = {0};
    nic_settling many = {129, 5}, odd = {128, UINT16_MAX};
    ANSWERS(NIC_DONE, nic_open(&n, 63, FIFO, 1));
    outcome.slot = 7;
    ANSWERS(NIC_NO_QUEUE, nic_next_step(&n, &many, &outcome));
    CHECK(outcome.slot == 7 && many.at == 5);
    ANSWERS(NIC_DONE, nic_next_step(&n, &odd, &outcome));
    nic_write32(&n, NIC_RXDCTL(127), NIC_RXDCTL_ENABLE);
    for (uint32_t at = 0; at < 1000; at++) {
        odd.at = (uint16_t)at;
        nic_write32(&n, NIC_RXDCTL(127), at & 1 ? 0 : NIC_RXDCTL_ENABLE);
        ANSWERS(NIC_MORE, nic_next_step(&n, &odd, &outcome));
        CHECK(outcome.step == NIC_RX_ENABLE && outcome.of == 127 && odd.at == 255);
    }
    nic_close(&n);
}

int main(int words, char **given)
{
    size_t count = 0;
    handles();
    borders();
    if (words > 1)
        CHECK(nic_record(given[1]));
    count += run();
    nic_record(NULL);
    for (int k = 0; k < RUNS; k++)
        count += run();
    printf("%d runs, %lu events\n", RUNS, (unsigned long)count);
    return 0;
}
