/* Which steps commute. */
#ifndef NICX_INDEPENDENT_H
#define NICX_INDEPENDENT_H

#include "engine.h"

/* Whether two steps commute. Both must be possible from the same state, and each must be recorded as it ran from that
   state. In either order they then have the same results and lead to the same state. */
bool nicxi_are_independent(const struct step *a, const struct step *b);

/* Return the row in the table by which two device steps commute, from 0, or -1; the number of rows; whether a row is
   about two kinds of steps; the name of a row's law. */
int nicxi_row_of(const struct step *a, const struct step *b);
int nicxi_rows(void);
bool nicxi_row_has(int row, uint8_t a, uint8_t b);
const char *nicxi_law(int row);
const char *nicxi_row_name(int row);

/* Returns the physical function's address for an offset of a virtual function, with GCR_EXT as given; NO_ADDRESS if the
   virtual function has no register at that offset. */
uint32_t nicxi_physical(uint32_t gcr_ext, uint8_t vf, uint32_t offset);

/* Returns the side that a register or a step belongs to: 2 q for queue q's receive side, 2 q + 1 for its transmit side,
   -1 for none. */
int nicxi_side_of_register(uint32_t address);
int nicxi_side_of_step(const struct step *step);

#endif
