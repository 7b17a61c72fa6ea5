/* A driver for the Intel 82599: one queue each way, one interrupt line, frames of up to 1,514 bytes. */
#ifndef CARD_H
#define CARD_H

#include "machine.h"

enum { FRAME_ROOM = 2048 };

/* Finds the card and sets it up. Returns false if the machine has no card or the card doesn't respond. */
bool card_open(void);
/* Returns the card's MAC address. */
const uint8_t *card_address(void);
/* Returns whether the link is up. */
bool card_has_link(void);

/* Returns the next received frame, with its length in bytes, or null. The caller owns it until card_next. */
uint8_t *card_frame(uint16_t *length);
/* Returns the frame's buffer to the card. */
void card_next(void);
/* Sends a copy of a frame. Returns false if all slots are in flight. */
bool card_send(const uint8_t *frame, uint16_t length);

/* Returns the causes that raised the line since the last call. */
enum { CARD_FRAMES = 1, CARD_LINK = 2 };
unsigned card_causes(void);
/* Unmasks the driver's causes, so that they can raise the line again. */
void card_unmask(void);

#endif
