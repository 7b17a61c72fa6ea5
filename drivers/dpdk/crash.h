/* Records where a run crashes, or where the script's time limit stops it. */
#ifndef CRASH_H
#define CRASH_H

/* Prints each line of output as soon as it is complete. If the environment names a CRASH_FILE, the return addresses are
   written to that file on a fatal signal, and on the SIGTERM of the time limit; drivers/dpdk/run looks them up. */
void crash_begin(void);

#endif
