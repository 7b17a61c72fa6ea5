/* The calls of the C library, for a library that is opened separately, so its names don't clash with another's. */
#ifndef CALLS_H
#define CALLS_H

#include "nic82599.h"

/* All functions that nic82599.h declares and a program can compare; dev/compare_editions checks that none is missing.
   The functions that report the edition (nic_version, nic_edition, nic_is_proved) are omitted, because they must
   differ. */
#define CALLS(X)                                                                                                       \
    X(nic_record)                                                                                                      \
    X(nic_note)                                                                                                        \
    X(nic_new)                                                                                                         \
    X(nic_free)                                                                                                        \
    X(nic_snapshot)                                                                                                    \
    X(nic_restore)                                                                                                     \
    X(nic_free_snapshot)                                                                                               \
    X(nic_read32)                                                                                                      \
    X(nic_write32)                                                                                                     \
    X(nic_vf_read32)                                                                                                   \
    X(nic_vf_write32)                                                                                                  \
    X(nic_peek32)                                                                                                      \
    X(nic_vf_peek32)                                                                                                   \
    X(nic_vf_address)                                                                                                  \
    X(nic_lend)                                                                                                        \
    X(nic_take)                                                                                                        \
    X(nic_lend_all)                                                                                                    \
    X(nic_lend_memory)                                                                                                 \
    X(nic_unlend_memory)                                                                                               \
    X(nic_dma_read)                                                                                                    \
    X(nic_dma_write)                                                                                                   \
    X(nic_arrive)                                                                                                      \
    X(nic_next_out)                                                                                                    \
    X(nic_collect)                                                                                                     \
    X(nic_link)                                                                                                        \
    X(nic_rx_step)                                                                                                     \
    X(nic_tx_step)                                                                                                     \
    X(nic_queue_step)                                                                                                  \
    X(nic_eeprom_step)                                                                                                 \
    X(nic_int_step)                                                                                                    \
    X(nic_settle)                                                                                                      \
    X(nic_next_step)                                                                                                   \
    X(nic_why)                                                                                                         \
    X(nic_install_image)                                                                                               \
    X(nic_install_text)                                                                                                \
    X(nic_hash)

enum call {
#define NUMBER(name) CALL_##name,
    CALLS(NUMBER)
#undef NUMBER
        CALL_COUNT
};

struct library {
#define FIELD(name) __typeof__(&name) name;
    CALLS(FIELD)
#undef FIELD
};

#endif
