/* Reads a file of frames with both readers of captures: the server's (pcap and pcapng), and the library header's
   (pcap). Each must terminate, and must return no frame longer than its buffer. */
#define _GNU_SOURCE
#include "capture.h"
#include "input.h"
#include "nic82599_pcap.h"

#define ROOM 128 /* shorter than some frames */

static void read_by_server(FILE *file)
{
    static uint8_t frame[ROOM];
    struct capture_reader reader;
    size_t length = 0;
    if (!capture_open(&reader, file))
        return;
    while (capture_next(&reader, frame, sizeof frame, &length) == CAPTURE_FRAME)
        MUST(length <= sizeof frame);
}

static void read_by_header(FILE *file)
{
    static uint8_t frame[ROOM];
    pcap_reader reader;
    size_t length = 0;
    if (!pcap_begin_reading(&reader, file))
        return;
    while (pcap_next(&reader, frame, sizeof frame, &length) == PCAP_FRAME)
        MUST(length <= sizeof frame);
}

int LLVMFuzzerTestOneInput(const uint8_t *bytes, size_t length)
{
    static void (*const readers[])(FILE *) = {read_by_server, read_by_header};
    for (size_t k = 0; length && k < sizeof readers / sizeof *readers; k++) {
        FILE *file = fmemopen((void *)(uintptr_t)bytes, length, "rb");
        MUST(file);
        readers[k](file);
        fclose(file);
    }
    return 0;
}
