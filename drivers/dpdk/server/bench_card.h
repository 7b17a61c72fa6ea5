/* The guest server's card as a program's bench. The card performs its offloads on all frames that it sends. */
#ifndef BENCH_CARD_H
#define BENCH_CARD_H

#include <stddef.h>
#include <stdint.h>

/* Sets the callback that receives the card's frames. */
void bench_card_send_to(void (*sink)(const uint8_t *frame, size_t length));
/* Stores how many TSO packets were cut, and into how many segments. */
void bench_card_counts(uint64_t *large, uint64_t *segments);

#endif
