/* A kernel that does one thing: it finds an 82599 and sends each frame back to its sender. */
#include "card.h"

enum { ADDRESS = 6, TYPE_AT = 12 };

static void say_address(const uint8_t *address)
{
    for (unsigned k = 0; k < ADDRESS; k++) {
        if (k)
            say(":");
        say_hex(address[k], 2);
    }
}

static void say_link(void)
{
    say(card_has_link() ? "kernel: link up\n" : "kernel: link down\n");
}

/* Addresses a frame to its sender, from the card's own address. */
static void turn_round(uint8_t *frame)
{
    for (unsigned k = 0; k < ADDRESS; k++) {
        frame[k] = frame[ADDRESS + k];
        frame[ADDRESS + k] = card_address()[k];
    }
}

/* Sends the received frames back until none is left or no slot is free. A frame without a slot stays in its buffer. */
static void echo(void)
{
    static bool is_swapped; /* the oldest frame has its new addresses, but found no free slot */
    uint16_t length;
    for (uint8_t *frame = card_frame(&length); frame; frame = card_frame(&length)) {
        if (!is_swapped)
            turn_round(frame);
        is_swapped = !card_send(frame, length);
        if (is_swapped)
            return;
        card_next();
    }
}

void kernel(void)
{
    say("\nkernel: started\n");
    if (!card_open()) {
        say("kernel: no card found\n");
        return;
    }
    say("kernel: card ");
    say_address(card_address());
    say("\n");
    say_link();
    for (;;) {
        if (card_causes() & CARD_LINK)
            say_link();
        echo();
        /* A frame that arrived after the last check raises the line immediately, so no frame is forgotten. */
        card_unmask();
        sleep_until_interrupt();
    }
}
