/* The kit: frames of flows arrive complete, in the queue and with the hash that the kit predicts. The drivers of the PF
   and of a virtual function exchange words through the mailbox, in any order of steps. */
#include <stdio.h>
#include <string.h>

#include "corpus.h"

enum { QUEUES = 4, FLOWS = 12, LONG = 1500, WORDS = 3 };

static nicx_flow flows[FLOWS];
static unsigned got;
static nicx_mailbox mailbox;
static bool asked, answered;

static uint32_t ring(unsigned queue)
{
    return RX_RING + NIC_DESC_BYTES * SLOTS * queue;
}

/* A few TCP flows, UDP flows, and flows of other protocols, each with its own frame numbers. */
static void name_flows(void)
{
    static const uint8_t protocols[] = {NICX_TCP, NICX_UDP, 1};
    for (uint32_t k = 0; k < FLOWS; k++) {
        nicx_flow flow = {0x0A000001 + 77 * k, 0x0A0000FF, (uint16_t)(1000 + 13 * k), 80, protocols[k % 3]};
        flows[k] = flow;
    }
}

static const char *bring_up(void)
{
    nicx_lend_all();
    nicx_write32(NIC_GCR_EXT, 3);
    nicx_write32(NIC_CTRL_EXT, 0x4000);
    nicx_vf_read32(0, NIC_VFMAILBOX);
    nicx_write32(NIC_RXCTRL, NIC_RXCTRL_RXEN);
    nicx_write32(NIC_FCTRL, NIC_FCTRL_UPE);
    nicx_write32(NIC_MRQC, NIC_MRQC_MRQE_IS(1) | NIC_MRQC_TCPIPV4 | NIC_MRQC_UDPIPV4); /* other flows aren't hashed */
    nicx_write32(NIC_RXCSUM, 1u << 13);
    for (uint32_t k = 0; k < NIC_RSSRK_COUNT; k++)
        nicx_write32(NIC_RSSRK(k), 0x9E3779B9u * (k + 1));
    for (uint32_t k = 0; k < NIC_RETA_COUNT; k++)
        nicx_write32(NIC_RETA(k), 0x00010203);
    for (unsigned queue = 0; queue < QUEUES; queue++)
        bring_up_receive_queue(queue, ring(queue), SLOTS * queue, SLOTS - 1);
    name_flows();
    return NULL;
}

/* Checks each frame in a ring: its number, queue and hash. */
static void take_all(void *unused)
{
    while (got < FLOWS) {
        bool any = false;
        for (unsigned queue = 0, slot = 0; queue < QUEUES; slot = (slot + 1) % SLOTS, queue += !slot) {
            uint8_t frame[LONG];
            nic_desc d = nicx_get_desc(ring(queue), slot);
            if (!nic_rx_is_done(d))
                continue;
            uint32_t length = nic_rx_length(d);
            nicx_dma_read(buffer(SLOTS * queue + slot), frame, length);
            uint32_t number = nicx_frame_number(frame, length);
            nicx_check(number < FLOWS, "a frame has no number");
            nicx_check(nicx_rss_queue(&flows[number]) == queue, "a frame is in the wrong queue");
            nicx_check(nicx_rss_hash(&flows[number]) == nic_rx_hash(d), "a frame has the wrong hash");
            nicx_put_desc(ring(queue), slot, nic_rx_desc(0));
            got++;
            any = true;
        }
        if (!any)
            nicx_wait();
    }
}

/* --- the mailbox: a request, its acknowledgement, the reply, and the reply's acknowledgement --- */

static void function(void *unused)
{
    static const uint32_t question[WORDS] = {1, 2, 3};
    uint32_t answer[WORDS] = {0};
    nicx_function_sends(&mailbox, question, WORDS);
    while (!nicx_function_is_acked(&mailbox))
        nicx_wait();
    while (!nicx_function_receives(&mailbox, answer, WORDS))
        nicx_wait();
    answered = answer[0] == 2 && answer[1] == 4 && answer[2] == 6;
}

static void host(void *unused)
{
    uint32_t words[WORDS] = {0};
    while (!nicx_host_receives(0, words, WORDS))
        nicx_wait();
    asked = words[0] == 1 && words[1] == 2 && words[2] == 3;
    for (unsigned k = 0; k < WORDS; k++)
        words[k] *= 2;
    nicx_host_sends(0, words, WORDS);
    while (!nicx_host_is_acked(0))
        nicx_wait();
}

static void begin(void)
{
    uint8_t frame[LONG];
    got = 0;
    asked = answered = false;
    memset(&mailbox, 0, sizeof mailbox);
    nicx_task("takes", take_all, NULL);
    nicx_task("function", function, NULL);
    nicx_task("host", host, NULL);
    for (uint32_t k = 0; k < FLOWS; k++) {
        size_t length = 60 + (k * 131) % (LONG - 60);
        nicx_check(nicx_flow_frame(frame, length, &flows[k], k), "no frame was built for a flow");
        nicx_frame(frame, length);
    }
}

static const char *end(void)
{
    return got != FLOWS ? "a frame is lost" : asked && answered ? NULL : "the mailbox returned the wrong words";
}

/* --- numbered frames, without a device --- */

static int check_numbers(void)
{
    static uint8_t frame[16385];
    const nicx_flow flow = {1, 2, 3, 4, NICX_UDP};
    if (nicx_numbered_frame(frame, 59, 1) || nicx_numbered_frame(frame, 16385, 1) ||
        nicx_flow_frame(frame, 1519, &flow, 1))
        return 1;
    for (uint32_t number = 0; number < 100000; number += 4321) {
        size_t length = 60 + number % 16000;
        if (!nicx_numbered_frame(frame, length, number) || nicx_frame_number(frame, length) != number)
            return 2;
        frame[14 + number % (length - 14)] ^= 1;
        if (nicx_frame_number(frame, length) == number)
            return 3;
    }
    return 0;
}

int main(int argc, char **argv)
{
    const nicx_scenario scenario =
        SCENARIO(.name = "kit", .vfs = 1, .blocks = 2 + QUEUES * SLOTS, .queues = QUEUES, .points = 20000);
    int fault = check_numbers();
    if (fault)
        printf("kit: check %d of numbered frames failed\n", fault);
    return fault ? 1 : nicx_main(argc, argv, &scenario);
}
