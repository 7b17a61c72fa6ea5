/* Orders from the guest's program to the card's process. They are registers in the physical function's configuration
   space that no card has; the driver and the network stack don't see them. The guest writes the arguments and then the
   order, which is carried out before that write ends. Then the guest reads the results. Both programs include this
   file. */
#ifndef LINUX_ORDERS_H
#define LINUX_ORDERS_H

/* addresses in configuration space, 32 bits each */
#define ORDER_COUNT 0xE0
#define ORDER_FIRST 0xE4    /* number of the first frame */
#define ORDER_MOST 0xE8     /* length of the longest frame in bytes */
#define ORDER_MAC 0xEC      /* 6 bytes */
#define ORDER_FUNCTION 0xF2 /* 16 bits: 0 for the physical function, v + 1 for virtual function v */
#define ORDER_WHAT 0xF4
#define ORDER_RESULT 0xF8
#define ORDER_RESULT_2 0xFC

enum order {
    ORDER_PHASE = 1, /* enters phase `count` of the run */
    ORDER_LINK,      /* link up (count 1) or down (0) */
    ORDER_EXPECT,    /* expects `count` frames from MAC, numbered from `first` */
    ORDER_SENT,      /* results: frames that arrived unchanged and in order; all frames that arrived */
    ORDER_SEND,      /* sends `count` frames to MAC, numbered from `first`; RSS selects the queue in `function` */
    ORDER_ONE,       /* sends frame `first` to MAC; result 1 if the device accepted it */
    ORDER_MESSAGES,  /* result: MSI-X messages that `function` has sent */
    ORDER_ECHOES,    /* result: datagrams sent back */
    ORDER_FAULTS,    /* result: faults so far; at the end, expects `count` faults, one for each offload */
    ORDER_VERDICT    /* end of the guest: `count` problems in `first` comparisons */
};

/* The parts of a run, for counts and strays by phase; their names follow in this order. */
enum phase {
    PHASE_PROBE,
    PHASE_UP,
    PHASE_OFFLOADS,
    PHASE_TRAFFIC,
    PHASE_LINK,
    PHASE_MTU,
    PHASE_TEST,
    PHASE_FILTERS,
    PHASE_STACK,
    PHASE_AGAIN,
    PHASE_VFS,
    PHASE_UNDER,
    PHASE_END
};
#define PHASE_NAMES                                                                                                    \
    "probe", "up", "offloads", "traffic", "link", "mtu", "test", "filters", "stack", "again", "vfs", "under", "end"

/* MAC addresses on the wire. The card's is in its EEPROM; a function's ends with its number, counted from 1. */
#define CARD_MAC                                                                                                       \
    {                                                                                                                  \
        0x02, 0x00, 0x00, 0x00, 0x82, 0x99                                                                             \
    }
#define PEER_MAC                                                                                                       \
    {                                                                                                                  \
        0x02, 0x00, 0x00, 0x00, 0x00, 0x01                                                                             \
    }

#define FUNCTIONS_MOST 7 /* virtual functions: slots 1 to 7 of the guest's bus */

#endif
