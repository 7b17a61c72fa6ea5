/* Processes descriptors as the device and the server do: reads lines, and prints the frames that are sent on the wire.

     context FIRST SECOND          a context descriptor, both halves in hex
     forget                        resets the queue
     data SECOND LEGACY BYTES      a data descriptor: its second half as the driver wrote it, in the advanced form or
                                   (LEGACY 1) in the legacy one; then its bytes
   After each descriptor with EOP, the frames follow, one line of hex each, then a line with a dot. */
#include <inttypes.h>
#include <stdio.h>
#include <stdlib.h>
#include <string.h>

#include "../../tests/check.h"
#include "nic82599.h"
#include "offload.h"

#define LINE_MOST (1u << 18)

static struct offload *offload;
static uint8_t frame[OFFLOAD_FRAME_MOST];
static size_t frame_length;

static void print_frame(void *to, const uint8_t *bytes, size_t length)
{
    (void)to;
    for (size_t i = 0; i < length; i++)
        printf("%02x", bytes[i]);
    putchar('\n');
}

static size_t bytes_of(const char *text, uint8_t *bytes)
{
    size_t count = 0;
    unsigned int byte;
    for (; sscanf(text, "%2x", &byte) == 1; text += 2)
        bytes[count++] = (uint8_t)byte;
    return count;
}

static void forget(void)
{
    offload_forget(offload, 3);
    frame_length = 0;
}

/* For a TSO packet, the device gets a short frame with the last descriptor, and nothing to send before that. */
static void check_stand_in(uint64_t second, size_t length)
{
    bool is_last = (second & NIC_TXD_EOP) != 0;
    CHECK((second & NIC_TXD_DTYP) == NIC_TXD_DTYP_IS(is_last ? 3 : 2));
    CHECK(is_last ? length > 0 && length <= OFFLOAD_STAND_IN : length == 0);
}

/* Cuts TSO packets in pieces with budgets of all sizes, each of which allows at least one segment. */
static void cut_in_pieces(void)
{
    static struct budget budget;
    static size_t piece = 1;
    while (offload_is_cutting(offload, 3)) {
        uint64_t before = offload->counts.segments;
        budget.left[0] = piece = piece * 5 % 8191;
        offload_cut(offload, 3, &budget, print_frame, NULL);
        CHECK(offload->counts.segments > before);
        CHECK(!offload_is_cutting(offload, 3) || budget_is_spent(&budget));
    }
}

static void take_data(uint64_t second, bool is_legacy, const char *text)
{
    static uint8_t bytes[LINE_MOST / 2];
    struct legacy_sum sum = {0};
    uint16_t tag = 0;
    size_t length = bytes_of(text, bytes);
    CHECK(is_legacy == legacy_is_transmit(second));
    if (is_legacy)
        second = legacy_transmit(second, &sum, &tag);
    CHECK((second & NIC_TXD_DTALEN) == length);
    bool is_large = (second & NIC_TXD_TSE) != 0;
    second = offload_data(offload, 3, second, bytes, &length, is_legacy ? &sum : NULL, tag);
    CHECK((second & (NIC_TXD_POPTS | NIC_TXD_TSE | NIC_TXD_VLE)) == 0 && second & NIC_TXD_DEXT);
    if (is_large)
        check_stand_in(second, length);
    if ((second & NIC_TXD_DTYP) == NIC_TXD_DTYP_IS(3)) {
        CHECK((second & NIC_TXD_DTALEN) == length && frame_length + length <= sizeof frame);
        memcpy(frame + frame_length, bytes, length);
        frame_length += length;
    }
    if (!(second & NIC_TXD_EOP))
        return;
    offload_sent(offload, 3, frame, frame_length, print_frame, NULL);
    cut_in_pieces();
    frame_length = 0;
    puts(".");
}

int main(void)
{
    static char line[LINE_MOST + 100];
    uint64_t first, second;
    int is_legacy, at;
    offload = offload_new();
    CHECK(offload);
    while (fgets(line, sizeof line, stdin)) {
        if (sscanf(line, "context %" SCNx64 " %" SCNx64, &first, &second) == 2)
            offload_context(offload, 3, first, second);
        else if (sscanf(line, "data %" SCNx64 " %d %n", &second, &is_legacy, &at) == 2)
            take_data(second, is_legacy != 0, line + at);
        else if (strcmp(line, "forget\n") == 0)
            forget();
        else
            CHECK(!"unknown line");
    }
    offload_free(offload);
    return 0;
}
