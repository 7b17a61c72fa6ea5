/* A driver that has all functions but does nothing. No row that requires something to happen may pass. */
#include "nic82599_drive.h"

static uint16_t slots; /* so that `resize` changes some state */

static bool open_driver(const nicd_setup *setup)
{
    slots = setup->slots;
    return true;
}

static void close_driver(void)
{
    slots = 0;
}

static bool receive(uint16_t queue, nicd_frame *frame)
{
    frame->length = queue;
    return false;
}

static bool send(uint16_t queue, const uint8_t *bytes, uint32_t length)
{
    return queue > length && bytes[0];
}

static uint32_t reclaim(uint16_t queue)
{
    return queue > slots;
}

static uint32_t interrupt(uint8_t vector)
{
    return vector > slots;
}

static void rearm(uint16_t queue)
{
    slots = queue > slots ? queue : slots;
}

static bool filter(const nicd_filter *wanted)
{
    return wanted->count <= 4;
}

static bool rss(const nicd_rss *wanted)
{
    return wanted->table[0] < NICD_QUEUES;
}

static bool mtu(uint32_t frame)
{
    return frame != 0;
}

static bool resize(uint16_t wanted)
{
    slots = wanted;
    return true;
}

static bool done(void)
{
    return true;
}

static bool mailbox_send(uint8_t vf, const uint32_t *words, uint32_t count)
{
    return vf > count && words[0];
}

static bool mailbox_receive(uint8_t vf, uint32_t words[NICD_WORDS])
{
    words[0] = vf;
    return false;
}

int main(int argc, char **argv)
{
    static const nicd_driver card = {
        .name = "idle",
        .can = NICD_SHARED_SEND | NICD_FUNCTIONS | NICD_HOST,
        .queues = 4,
        .frame = NICD_FRAME_MOST,
        .open = open_driver,
        .close = close_driver,
        .receive = receive,
        .send = send,
        .reclaim = reclaim,
        .interrupt = interrupt,
        .rearm = rearm,
        .filter = filter,
        .rss = rss,
        .mtu = mtu,
        .resize = resize,
        .reset = done,
        .suspend = done,
        .resume = done,
        .link = done,
        .mailbox_send = mailbox_send,
        .mailbox_receive = mailbox_receive,
        .mailbox_ready = done,
    };
    return nicd_main(argc, argv, &card);
}
