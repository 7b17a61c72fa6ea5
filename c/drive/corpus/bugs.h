/* The bugs planted in driver.c: for each, the row that finds it, its reported cause as a regular expression, and a
   description; and "weak" if it needs weak memory. driver.c uses only the names in this file; check.py uses all of
   it. */
WRONG(BUFFER_AGAIN_BEFORE_DD, "send-one", "reclaim reports all of queue 0 as transmitted, but frame 0 in slot 0 isn't",
      "A buffer is reclaimed before the device reports it as transmitted")
WRONG(EICR_CLEARED_AFTER_POLL, "interrupt-receive",
      "frame \\d is in slot \\d of queue 0 but never reached the caller: cause 0 is enabled in EIMS but not raised",
      "A poll that found its ring empty clears EICR before it unmasks")
WRONG(ENABLE_NOT_POLLED, "resize-during-traffic", "RDBAL.0. is written while the queue is on|isn't lent",
      "A queue being disabled stays on for a while, and its ring is moved in the meantime")
WRONG(LENGTH_BEFORE_DD, "receive-one", "a 0-byte frame is delivered from queue 0", "A frame's length is read before DD")
WRONG(LINK_CHANGE_LOST, "link-during-reset", "the link is down, but the driver reports it as up",
      "A reset clears the cause of a link change")
WRONG(LOCK_IN_HANDLER_AND_POLL, "interrupt-spurious", "deadlock: .* waits for a lock, which .* holds",
      "A handler takes the lock held by the poll it interrupts")
WRONG(MAILBOX_NOT_TAKEN, "mailbox-function-collides", "it was mixed or overwritten",
      "Both sides write the same mailbox")
WRONG(MESSAGE_BEFORE_ACK, "mailbox-function-sends", "message 0 from the virtual function is read as 0xf0000100",
      "The next message is written before the previous one is acknowledged")
WRONG(RS_ON_EVERY_FOURTH, "send-one",
      "1 frame in queue 0 hasn't been transmitted, although all have: slot 0 was never reclaimed, because it has no RS",
      "Only every fourth descriptor requests a report, so the others wait for it")
WRONG(RSTD_SEEN_ONCE, "mailbox-ready-once", "deadlock: ready waits",
      "One thread's read clears RSTD, which another thread needs")
WRONG(STOP_THAT_DOES_NOT_WAIT, "close-during-frames", "queue 0 is on although the driver is closed|isn't lent",
      "A stop doesn't wait until the queue is off")
WRONG(TAIL_BEFORE_DESCRIPTOR, "receive-wrap", "fault: queue 0: 0x\\w+ isn't lent .*; receive0 last wrote RDT\\[0\\]",
      "The tail is advanced before its descriptor is written")
WRONG(TAIL_MEETS_HEAD, "receive-burst", "head and tail meet",
      "The driver gives the device every slot, which makes the ring look empty")
WRONG(TWO_THREADS_ONE_RING, "send-two-threads", "slot \\d of queue 0|frame \\d",
      "Two threads send on one ring without a lock")
WRONG(UNMASKED_BEFORE_LAST_LOOK, "interrupt-receive", "delivered a second time",
      "A poll unmasks before its last check, and a second poll starts in the meantime")
WRONG(WRITTEN_HEAD_STALE, "reset-twice",
      "reclaim reports all of queue 0 as transmitted, but frame \\d in slot \\d isn't",
      "A head written back before the reset is taken for a new one")
WRONG(INTERRUPT_MODERATION, "interrupt-receive", "is in slot \\d of queue 0 but never reached the caller",
      "A poll loses an interrupt, because other code also unmasks")
WRONG(MAILBOX_WITHDRAWN_REQUEST, "host-withdrawn-request", "it was mixed or overwritten",
      "The reply to a withdrawn request overwrites the next request")
WRONG(RING_RESIZE_JUMBO, "resize-during-chains", "frame \\d is 5000 bytes long but is delivered with|other bytes",
      "Half a frame is left over when a ring is replaced")
WRONG(TRANSMIT_WATCHDOG, "send-one", "sent frame 0 was transmitted a second time",
      "A watchdog resends transmitted frames before the queue is off")
WRONG(SLOT_WITHOUT_DD, "receive-empty", "receive returned true, but no frame arrived",
      "A slot is processed although DD isn't set")
WRONG(SLOT_TAKEN_TWICE, "receive-one", "frame 0 is delivered a second time", "A slot is processed twice")
WRONG(ACCEPTED_AND_DROPPED, "send-full", "never transmitted|reclaim reports all of queue 0",
      "send accepts a frame although the ring is full, and drops it")
WRONG(IDLE_REPORTED_EARLY, "send-wrap",
      "reclaim reports all of queue 0 as transmitted, but frame \\d in slot \\d isn't",
      "After the first frame is transmitted, all are reported as transmitted")
WRONG(CAUSE_READ_AWAY, "setup-cause-read", "a read of EICR clears the queue causes 0x0001",
      "A handler reads EICR to clear it, which the card doesn't do with MSI-X")
WRONG(EIMS_OF_ALL_QUEUES, "interrupt-rearm-alone", "rearm of queue 0 enables the cause of queue 1 too",
      "One queue's poll enables the causes of all queues")
WRONG(IVAR_BYTE_LOST, "interrupt-two-queues",
      "frame \\d is in slot \\d of queue 0 but never reached the caller: its IVAR byte isn't valid",
      "One queue's vector overwrites the other queue's vector")
WRONG(FIRST_DD_OF_A_CHAIN, "receive-4096", "frame 0 is 4096 bytes long but is delivered with 2048",
      "For a frame in several buffers, only the first DD is checked")
WRONG(HEAD_CACHED_OVER_A_WRAP, "send-wrap",
      "send on queue 0 fails forever, although all its frames were transmitted: slot \\d was never reclaimed",
      "The head is compared with a slot as if the ring never wrapped")
WRONG(DOUBLE_CLEANER, "interrupt-both-ways",
      "never transmitted|reclaim reports|didn't transmit|second time|deadlock|endless",
      "The handler reclaims slots concurrently with the poll")
WRONG(LOCK_ORDER, "both-ways", "deadlock: .* waits for a lock, which .* holds",
      "Two locks are taken in opposite orders")
WRONG(ENABLE_NOT_AWAITED, "setup-enables-polled", "open returns before receive queue 0 is on",
      "The driver neither waits for a queue to turn on, nor stops one that still reads as off")
WRONG(PAYLEN_OF_BUFFER, "send-descriptor-chain", "slot \\d has PAYLEN 2048 for a 9014-byte frame in slots",
      "Each descriptor's PAYLEN is its buffer's length instead of the frame's")
WRONG(IFCS_MISSING, "send-descriptor", "slot 0 has no IFCS", "The driver doesn't request the frame check sequence")
WRONG(RECLAIM_BY_HEAD, "send-write-back", "neither a slot's DD nor a head .*: it read TDH",
      "TDH is taken for the device's progress")
WRONG(MEMORY_LOST_BY_RESET, "reset-memory",
      "after three, for example one of 2048 bytes at 0x\\w+, which reset allocated",
      "A reset allocates rings and buffers without freeing the old ones")
WRONG(SUSPEND_LEAVES_LINK_CAUSE, "suspend-quiet",
      "vector 8 sends a message while the driver is suspended: EIMS is 0x00180000",
      "A suspend masks the queues' causes but not the link's")
WRONG(SUSPEND_LEAVES_QUEUES_ON, "suspend-quiet",
      "slot \\d of receive queue 0 is written while the driver is suspended: RXDCTL is 0x02000000",
      "A suspend masks all causes but leaves the queues on")
WRONG(INTERVAL_UNSHIFTED, "setup-moderation", "EITR.0. is written with 0x00000064: bits .* reserved",
      "An interval in microseconds is written to EITR unshifted")
WRONG(INTERVAL_OF_QUEUE, "setup-moderation", "EITR.1. has an interval, but neither IVAR nor IVAR_MISC names vector 1",
      "An interval is set for the wrong vector")
WRONG(INTERVAL_FOR_LOCK, "interrupt-often", "never reached the caller",
      "A handler assumes that a poll is shorter than the interval")
WRONG(BUDGET_WITHOUT_POLL, "interrupt-late", "frame \\d+ is in slot \\d of queue 0 but never reached the caller",
      "A poll stops after four frames and isn't scheduled again")
WRONG(RETA_OF_TWO_QUEUES, "rss-four-queues",
      "frame \\d+ arrived in queue [01] instead of [23]: .* of RETA, which holds [01]",
      "Only the lowest bit of each entry is written to RETA")
WRONG(IVAR_OF_TWO_QUEUES, "rss-four-vectors", "of queue [23] but never reached the caller: its IVAR byte isn't valid",
      "The vectors of queues 0 and 1 are written, but the vectors of queues 2 and 3 aren't")
WRONG(MISSING_WMB, "send-one", "fault: queue 0: legacy", "A tail write overtakes the store of its descriptor", "weak")
WRONG(MISSING_RMB, "receive-one", "frame 0 is delivered with wrong bytes", "A frame's bytes are read before DD", "weak")
WRONG(VECTORS_AFTER_RECEPTION, "open-during-interrupts",
      "frame \\d is in slot \\d of queue 0 but never reached the caller: cause 0 is enabled in EIMS but not raised",
      "IVAR is set after reception is on, so earlier frames raise no cause")
WRONG(CAUSES_RAISED_TOO_EARLY, "open-during-interrupts",
      "frame \\d is in slot \\d of queue 0 but never reached the caller",
      "EICS raises the causes of earlier frames, but EICR is cleared afterwards")
WRONG(CAUSES_ENABLED_FIRST, "setup-vector-order", "EIMS enables the queue causes 0x0001, but the IVAR byte",
      "EIMS enables the causes before IVAR sets their vectors")
WRONG(FILTER_BY_RESTART, "filter-during-traffic", "is delivered before|never reached the caller|wasn't received",
      "A filter is changed by a restart, which loses accepted frames")
WRONG(FILTER_CLEARED_FIRST, "list-during-traffic", "to its own address wasn't received",
      "All addresses are cleared before the new ones are written")
WRONG(FILTER_BY_STOP, "promiscuous-during-traffic", "to its own address wasn't received",
      "Reception is off while the filter is changed")
WRONG(RETA_CHANGED_BY_HALF, "rss-changed", "arrived in queue \\d instead of \\d",
      "Only the first half of a new table is written")
WRONG(COUNTED_IN_TWO_STEPS, "stats-receive", "stats: rx_frames is \\d and rx_bytes \\d+ for 60-byte frames",
      "A frame and its bytes are counted in two steps, with a read of the statistics in between")
WRONG(LINK_TOGGLED, "link-flap", "the link is (up|down), but the driver reports it as (up|down)",
      "A handler toggles the link state on each interrupt, but two changes raise only one")
