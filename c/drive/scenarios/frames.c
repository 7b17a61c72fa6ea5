/* Frames of many lengths, in one buffer and in several. */
#include "../engine/drive.h"

static void come_mixed(void)
{
    static const uint32_t lengths[] = {60, 2048, 61, 1514, 4096, 64, 2049, 1518};
    nicd_take_frames();
    for (unsigned k = 0; k < sizeof lengths / sizeof *lengths; k++)
        nicd_come_plain(1, lengths[k]);
}

static void go_mixed(void)
{
    static const uint32_t lengths[] = {4096, 60, 2049};
    for (unsigned k = 0; k < sizeof lengths / sizeof *lengths; k++)
        nicd_send_frames(0, 1, lengths[k]);
}

static const char length_rule[] = "PKT_LEN is the number of the frame's bytes in this buffer; a frame longer than its "
                                  "buffer continues in the next descriptor, and EOP marks the last one";
static const char send_rule[] =
    "A frame may have several descriptors: DTALEN is the length of each buffer, and EOP marks the last";

#define RECEIVE(bytes, most)                                                                                           \
    ROW("receive-" #bytes, #bytes "-byte frames arrive", length_rule, "Receive Descriptor Write-Back", RECEIVES,       \
        .setup = {.frame = most}, .takes = true, .comes = 3, .length = bytes)
#define SEND(bytes, most)                                                                                              \
    ROW("send-" #bytes, #bytes "-byte frames are sent", send_rule, "Advanced Transmit Data Descriptor", SENDS,         \
        .setup = {.frame = most}, .sends = 3, .length = bytes)

const struct scenario nicd_frames[] = {
    RECEIVE(60, 1514),
    RECEIVE(1514, 1514),
    RECEIVE(2048, 2048),
    RECEIVE(4096, 4096),
    RECEIVE(9014, 9014),
    ROW("receive-mixed", "short and chained frames alternate", length_rule, "Receive Descriptor Write-Back", RECEIVES,
        .setup = {.frame = 4096}, .begin = come_mixed),
    SEND(60, 1514),
    SEND(1514, 1514),
    SEND(2048, 2048),
    SEND(4096, 4096),
    SEND(9014, 9014),
    ROW("send-mixed", "three threads send frames of three lengths", send_rule, "Advanced Transmit Data Descriptor",
        SENDS | SHARED_SEND, .setup = {.frame = 4096}, .begin = go_mixed),
    {0}};
