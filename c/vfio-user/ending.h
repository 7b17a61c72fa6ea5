/* Ends the server: SIGTERM and SIGINT set a flag and make a file ready that the loop polls. The flag works even if
   other files are always ready. A second signal ends the process immediately. */
#ifndef VFU_ENDING_H
#define VFU_ENDING_H

#include <stdbool.h>

/* Installs the handlers. Returns false with errno set if it can't. Also ignores SIGPIPE and SIGXFSZ, so that a write
   that fails returns an error instead. */
bool ending_open(void);
bool ending_is_asked(void);
/* Returns a file that becomes readable when a signal requests the server's exit. */
int ending_file(void);

#endif
