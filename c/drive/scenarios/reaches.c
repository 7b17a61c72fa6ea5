/* What each row must reach in at least one schedule (enum reach), as observed at the device and in the card. A row
   that passes without it is reported as not reached. The last field is the call that DURING_IN and similar entries
   refer to. */
#include "../engine/drive.h"

const struct reached nicd_reaches[] = {
    /* setup */
    {"setup-transmit-order", {WRITES_TXDCTL}, NO_CALL},
    {"setup-tail-order", {WRITES_RDT}, NO_CALL},
    {"setup-head-order", {WRITES_HEAD}, NO_CALL},
    {"setup-reception-last", {WRITES_RXEN}, NO_CALL},
    {"setup-masked-before-reset", {WRITES_RESET}, NO_CALL},
    {"setup-masked-after-reset", {WRITES_RESET, WAS_OPENED}, NO_CALL},
    {"setup-masked-polling", {WAS_OPENED}, NO_CALL},
    {"setup-ring-values", {WRITES_RING, WRITES_RDT}, NO_CALL},
    {"setup-buffer-values", {WRITES_SRRCTL}, NO_CALL},
    {"setup-address-values", {WRITES_ADDRESS}, NO_CALL},
    {"setup-thresholds", {WRITES_TXDCTL}, NO_CALL},
    {"setup-alignment", {ACCESSED}, NO_CALL},
    {"setup-enables-polled", {WAS_OPENED}, NO_CALL},
    {"setup-crc", {WAS_OPENED}, NO_CALL},
    {"setup-rdrxctl", {WAS_OPENED}, NO_CALL},
    {"setup-gpie", {WAS_OPENED}, NO_CALL},
    {"setup-vectors", {WAS_OPENED}, NO_CALL},
    {"setup-vector-order", {WRITES_EIMS}, NO_CALL},
    {"setup-moderation", {WRITES_EITR, WAS_OPENED}, NO_CALL},
    {"setup-cause-read", {TAKEN, MESSAGES}, NO_CALL},
    {"setup-tails-in-use", {TAKEN, SENT, WRAPS, SENT_WRAPS}, NO_CALL},
    {"setup-long-frames", {WAS_OPENED}, NO_CALL},
    {"setup-hash", {WAS_OPENED, HASHES}, NO_CALL},
    {"setup-drop", {WAS_OPENED}, NO_CALL},
    {"setup-loaded", {WAS_OPENED, WAS_CLOSED}, NO_CALL},

    /* rings */
    {"receive-one", {TAKEN}, NO_CALL},
    {"receive-empty", {LOOKED}, NO_CALL},
    {"receive-burst", {TAKEN, FULL}, NO_CALL},
    {"receive-wrap", {TAKEN, WRAPS}, NO_CALL},
    {"receive-wrap-16", {TAKEN, WRAPS}, NO_CALL},
    {"receive-wrap-24", {TAKEN, WRAPS}, NO_CALL},
    {"receive-full", {TAKEN, FULL}, NO_CALL},
    {"send-one", {SENT}, NO_CALL},
    {"send-wrap", {SENT, SENT_WRAPS}, NO_CALL},
    {"send-wrap-16", {SENT, SENT_WRAPS}, NO_CALL},
    {"send-wrap-24", {SENT, SENT_WRAPS}, NO_CALL},
    {"send-full", {SENT, SEND_REFUSED}, NO_CALL},
    {"send-too-long", {SENT, SENT_LONG}, NO_CALL},
    {"send-two-threads", {SENT, OVERLAPS}, NO_CALL},
    {"both-ways", {TAKEN, SENT}, NO_CALL},
    {"two-queues", {TAKEN, SENT}, NO_CALL},
    {"send-write-back", {SENT, WRITTEN_BACK}, NO_CALL},

    /* frames */
    {"receive-60", {TAKEN, LONG}, NO_CALL},
    {"receive-1514", {TAKEN, LONG}, NO_CALL},
    {"receive-2048", {TAKEN, LONG}, NO_CALL},
    {"receive-4096", {TAKEN, LONG}, NO_CALL},
    {"receive-9014", {TAKEN, LONG}, NO_CALL},
    {"receive-mixed", {TAKEN, LONG}, NO_CALL},
    {"send-60", {SENT, SENT_LONG}, NO_CALL},
    {"send-1514", {SENT, SENT_LONG}, NO_CALL},
    {"send-2048", {SENT, SENT_LONG}, NO_CALL},
    {"send-4096", {SENT, SENT_LONG}, NO_CALL},
    {"send-9014", {SENT, SENT_LONG}, NO_CALL},
    {"send-mixed", {SENT, SENT_LONG, OVERLAPS}, NO_CALL},
    {"send-descriptor", {SENT, DESCRIPTOR}, NO_CALL},
    {"send-descriptor-chain", {SENT, DESCRIPTOR, SENT_CHAIN}, NO_CALL},

    /* interrupts */
    {"interrupt-receive", {TAKEN, MESSAGES, POLLED}, NO_CALL},
    {"interrupt-both-ways", {TAKEN, SENT, MESSAGES, POLLED}, NO_CALL},
    {"interrupt-two-queues", {TAKEN, MESSAGES}, NO_CALL},
    {"interrupt-spurious", {TAKEN, SPURIOUS}, NO_CALL},
    {"interrupt-late", {TAKEN, MESSAGES, LATE_CALL}, NO_CALL},
    {"interrupt-late-both-ways", {TAKEN, SENT, MESSAGES}, NO_CALL},
    {"interrupt-often", {TAKEN, MESSAGES, AGAIN_CALL}, NO_CALL},
    {"interrupt-rearm-alone", {OWN_VECTORS}, NO_CALL},

    /* rss */
    {"rss-tcp-ipv4", {TAKEN}, NO_CALL},
    {"rss-udp-ipv4", {TAKEN}, NO_CALL},
    {"rss-ipv4", {TAKEN}, NO_CALL},
    {"rss-tcp-ipv6", {TAKEN}, NO_CALL},
    {"rss-udp-ipv6", {TAKEN}, NO_CALL},
    {"rss-ipv6", {TAKEN}, NO_CALL},
    {"rss-none", {TAKEN_0}, NO_CALL},
    {"rss-four-queues", {TAKEN}, NO_CALL},
    {"rss-four-vectors", {TAKEN, MESSAGES}, NO_CALL},
    {"rss-changed", {TAKEN, DURING_IN, CAME_AFTER}, CALL_RSS},

    /* filters */
    {"filter-own", {TAKEN, KEPT_OUT}, NO_CALL},
    {"filter-broadcast", {TAKEN, KEPT_OUT}, NO_CALL},
    {"filter-all-multicast", {TAKEN, KEPT_OUT}, NO_CALL},
    {"filter-all", {TAKEN}, NO_CALL},
    {"filter-multicast", {TAKEN, KEPT_OUT}, NO_CALL},
    {"filter-second", {TAKEN, KEPT_OUT}, NO_CALL},
    {"filter-no-longer", {TAKEN, KEPT_OUT}, NO_CALL},
    {"filter-multicast-no-longer", {TAKEN, KEPT_OUT}, NO_CALL},

    /* life */
    {"open-close", {WAS_OPENED, WAS_CLOSED}, NO_CALL},
    {"open-during-frames", {WAS_OPENED, TAKEN, DURING_IN}, CALL_OPEN},
    {"open-during-interrupts", {WAS_OPENED, TAKEN, MESSAGES}, NO_CALL},
    {"close-during-frames", {WAS_CLOSED, TAKEN, DURING_IN}, CALL_CLOSE},
    {"close-during-sends", {WAS_CLOSED, SENT, DURING_OUT}, CALL_CLOSE},
    {"close-during-all", {WAS_CLOSED, TAKEN, MESSAGES, DURING_IN, DURING_OUT}, CALL_CLOSE},
    {"close-two-queues", {WAS_CLOSED, TAKEN, DURING_IN}, CALL_CLOSE},
    {"restart", {WAS_REOPENED, TAKEN, SENT}, NO_CALL},
    {"memory-refused", {NO_MEMORY, WAS_OPENED, TAKEN}, NO_CALL},
    {"suspend", {TAKEN, SENT, DURING_IN, DURING_OUT}, CALL_SUSPEND},
    {"suspend-quiet", {TAKEN, DURING_IN, ASLEEP_FRAME, ASLEEP_LINK}, CALL_SUSPEND},

    /* link */
    {"link-down", {LINK_DOWN}, NO_CALL},
    {"link-down-up", {LINK_DOWN, LINK_UP, TAKEN}, NO_CALL},
    {"link-during-reset", {LINK_DOWN, DURING_LINK}, CALL_RESET},
    {"link-flap", {LINK_DOWN, LINK_UP}, NO_CALL},

    /* stats */
    {"stats-receive", {TAKEN, COUNTED}, NO_CALL},
    {"stats-send", {SENT, COUNTED}, NO_CALL},
    {"stats-two-threads", {TAKEN, SENT, COUNTED}, NO_CALL},

    /* reset */
    {"reset-during-receive", {TAKEN, DURING_IN}, CALL_RESET},
    {"reset-during-send", {SENT, DURING_OUT}, CALL_RESET},
    {"reset-during-interrupts", {TAKEN, MESSAGES, DURING_IN, DURING_OUT}, CALL_RESET},
    {"reset-twice", {TAKEN, SENT, DURING_IN}, CALL_RESET},
    {"reset-during-chains", {TAKEN, CHAIN, DURING_IN}, CALL_RESET},
    {"reset-memory", {CALLED, WAS_CLOSED}, CALL_RESET},
    {"fault-receive", {MET_FAULT, TAKEN}, CALL_RESET},
    {"fault-send", {MET_FAULT, SENT}, CALL_RESET},

    /* changes */
    {"mtu-grows", {TAKEN, LONG, DURING_IN}, CALL_MTU},
    {"mtu-shrinks", {TAKEN, LONG, TOO_LONG, DURING_IN}, CALL_MTU},
    {"resize-during-traffic", {TAKEN, SENT, DURING_IN, DURING_OUT}, CALL_RESIZE},
    {"resize-during-chains", {TAKEN, CHAIN, DURING_IN}, CALL_RESIZE},
    {"resize-refused", {NO_MEMORY, TAKEN, SENT}, NO_CALL},

    /* function */
    {"function-both-ways", {TAKEN, SENT}, NO_CALL},
    {"function-wrap", {TAKEN, WRAPS}, NO_CALL},
    {"function-interrupts", {TAKEN, SENT, MESSAGES}, NO_CALL},
    {"function-two-queues", {TAKEN, SENT}, NO_CALL},
    {"function-close", {WAS_CLOSED, TAKEN, SENT, DURING_IN, DURING_OUT}, CALL_CLOSE},
    {"function-reset-under-it", {TAKEN, SENT, CALLED}, CALL_RESET},
    {"mailbox-function-sends", {MAIL_GIVEN}, NO_CALL},
    {"mailbox-function-receives", {MAIL_TAKEN}, NO_CALL},
    {"mailbox-function-collides", {MAIL_GIVEN, MAIL_TAKEN}, NO_CALL},
    {"mailbox-ready-once", {IS_READY}, NO_CALL},

    /* host */
    {"host-takes-messages", {MAIL_TAKEN, MAIL_TAKEN_1}, NO_CALL},
    {"host-sends-messages", {MAIL_GIVEN}, NO_CALL},
    {"host-collides", {MAIL_GIVEN, MAIL_TAKEN}, NO_CALL},
    {"host-withdrawn-request", {MAIL_GIVEN, MAIL_TAKEN}, NO_CALL},

    /* neighbour */
    {"neighbour-traffic", {TAKEN, SENT, WRAPS}, NO_CALL},
    {"neighbour-interrupts", {TAKEN, SENT, MESSAGES}, NO_CALL},
    {"neighbour-close", {WAS_CLOSED, DURING_IN}, CALL_CLOSE},
    {"neighbour-resize", {TAKEN, DURING_IN}, CALL_RESIZE},
    {NULL, {NO_REACH}, NO_CALL},
};
