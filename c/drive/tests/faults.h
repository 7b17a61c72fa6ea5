/* Forbidden actions of faulty.c's drivers: for each fault, the row that reports it and the report as a regular
   expression. The row after it must still pass. faulty.c uses only the names in this file; check.py uses all of it. */
WRONG(CRASH_IN_RECEIVE, "receive-one", "crash: .*signal 11")
WRONG(CRASH_IN_OPEN, "open-close", "crash: .*signal 11")
WRONG(HANG_IN_RECEIVE, "receive-one", "hang: task receive0 reached no further point")
WRONG(HANG_IN_OPEN, "receive-one", "hang: open didn't return before the first schedule")
WRONG(WAIT_IN_OPEN, "receive-one", "refused: .*waits forever.*r EERD")
WRONG(EXIT_IN_RECEIVE, "receive-one", "crash: the process exited with status 0")
WRONG(ABORT_IN_CLOSE, "open-close", "crash: .*signal 6")
WRONG(OUTSIDE_DMA, "receive-one",
      "memory: receive0 at faulty\\.c:\\d+ < faulty\\.c:\\d+ writes 0x1000, which isn't lent")
WRONG(OTHERS_DMA, "receive-one", "the driver lends block 200, which nicd_dma_alloc didn't return")
WRONG(PAST_THE_FRAME, "receive-one", "receive of queue 0 writes past the end of its frame's buffer")
WRONG(NO_LENGTH, "receive-one", "a 0-byte frame is delivered from queue 0")
WRONG(OTHER_QUEUE, "receive-one", "a frame is delivered from queue 3, but setup.queues is 1")
WRONG(FREE_TWICE, "open-close", "nicd_dma_free of 0x\\w+, which nicd_dma_alloc didn't return")
WRONG(FREE_OTHERS, "open-close", "nicd_dma_free of 0x1000, which nicd_dma_alloc didn't return")
WRONG(OPEN_FALSE, "receive-one", "open returned false")
WRONG(FROM_A_THREAD, "receive-one",
      "misuse: a thread that isn't a task calls the explorer.*: use the adapter's threads")
WRONG(THREAD_LEFT, "open-close", "thread0 still uses the device after close returned")
WRONG(LOCK_LEFT, "receive-wrap", "deadlock: receive0 waits for a lock, which receive0 holds")
WRONG(MEMORY_LEFT, "open-close", "1 allocation of DMA memory wasn't freed: \\d+ bytes at 0x\\w+, which open allocated")
WRONG(STORE_PAST_A_PIECE, "receive-one",
      "memory: receive0 writes 0x\\w+, which isn't lent: 0 bytes past the end of the 128 bytes at .*; to see the line "
      "of the store, "
      "compile with -g and -fsanitize=thread")
WRONG(STORE_GIVEN_BACK, "receive-one", "memory: receive0 writes 0x\\w+, which isn't lent: ")
WRONG(STORE_IN_OPEN, "receive-one",
      "the driver writes through a pointer to 0x\\w+, which isn't lent: 0 bytes past the end of the 128 bytes at")
WRONG(POINTER_TO_NOTHING, "receive-one", "nicd_dma_pointer of 0x10, which isn't lent: no nicd_dma_alloc allocation is")
WRONG(LENDS_IN_PLACE, "open-close", "misuse: control calls nic_lend_memory")
WRONG(STATE_LEFT, "receive-wrap", "misuse: begin doesn't initialize all of the driver's state")
