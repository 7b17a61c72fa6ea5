/* A failure as a page for the browser. It has a lane for each actor, and opens at the turning point. */
#ifndef NICX_PAGE_H
#define NICX_PAGE_H

#include "files.h"
#include "turn.h"

#define NO_CYCLE UINT32_MAX

/* Write the start of the page, up to its steps; one step, given a listener's arguments; and the end of the page. If the
   driver crashes, the page contains the steps up to the crash. */
void nicxi_page_begin(FILE *file, const struct origin *origin, const struct turn *turn, uint32_t cycle_from);
void nicxi_page_step(FILE *file, uint16_t actor, const struct step *step);
void nicxi_page_end(FILE *file);

#endif
