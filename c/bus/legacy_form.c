#include "legacy_form.h"

#include "nic82599.h"

/* A legacy transmit descriptor's second half */
#define LENGTH UINT64_C(0xFFFF)
#define SUM_AT_SHIFT 16
#define SUM_START_SHIFT 40
#define TAG_SHIFT 48
#define INSERT_SUM (UINT64_C(1) << 26)
#define KEPT (NIC_TXD_EOP | NIC_TXD_IFCS | NIC_TXD_RS | NIC_TXD_VLE | LENGTH) /* equal in both formats */

/* A legacy receive descriptor's second half: length in bits 15:0, status in bits 39:32 */
#define STATUS_SHIFT 32
#define STATUS UINT64_C(0xFF)

bool legacy_is_transmit(uint64_t second)
{
    return !(second & NIC_TXD_DEXT);
}

uint64_t legacy_transmit(uint64_t second, struct legacy_sum *sum, uint16_t *tag)
{
    sum->is_wanted = (second & INSERT_SUM) != 0;
    sum->at = (uint8_t)(second >> SUM_AT_SHIFT);
    sum->start = (uint8_t)(second >> SUM_START_SHIFT);
    *tag = (uint16_t)(second >> TAG_SHIFT);
    return (second & KEPT) | NIC_TXD_DTYP_IS(3) | NIC_TXD_DEXT | NIC_TXD_PAYLEN_IS(second & LENGTH);
}

uint64_t legacy_written_back(uint64_t second)
{
    uint64_t length = (second & NIC_RXWB_PKT_LEN) >> NIC_RXWB_PKT_LEN_SHIFT;
    return length | (second & STATUS) << STATUS_SHIFT;
}

bool legacy_is_receive(uint32_t srrctl)
{
    return nic_field(srrctl, NIC_SRRCTL_DESCTYPE) == 0;
}

uint32_t legacy_receive(uint32_t srrctl)
{
    return srrctl | NIC_SRRCTL_DESCTYPE_IS(1);
}
