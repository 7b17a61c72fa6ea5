/* Answers `why`: what blocks the waiting work. A separate thread finds the reasons on a copy of the device and of its
   rings' locations. Examining all that a guest can set up takes seconds of CPU time, and guests are served in the
   meantime. All clients share one thread, so they take turns. */
#ifndef VFU_EXPLAIN_H
#define VFU_EXPLAIN_H

#include <stdbool.h>

#include "card.h"

/* Starts the thread, once per process. Returns false with errno set if it can't. */
bool explain_start(void);
/* Returns a file that becomes readable when an answer is ready; -1 if the thread wasn't started. */
int explain_file(void);
/* Returns whether the thread is free for a question. */
bool explain_is_free(void);
/* Starts explaining the card's current state. Returns false if memory runs out. */
bool explain_ask(struct card *card);
/* Returns whether the answer is ready. */
bool explain_is_ready(void);
/* Returns the answer, valid until explain_end; null if memory ran out. */
const char *explain_text(void);
void explain_end(void);

/* Returns the answer, found on the caller's thread. The explaining thread must be free. A recorded card isn't copied,
   because the copy would be in the recording. */
const char *explain_now(struct card *card);

#endif
