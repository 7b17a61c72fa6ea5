/* Accesses each register through its alias, if it has one. The card's verdict on a driver must not depend on which
   address the driver uses. */
#ifndef DRIVE_ALIASES_H
#define DRIVE_ALIASES_H

#include "nic82599_drive.h"

static inline uint32_t other_in(uint32_t address, uint32_t first, uint32_t stride, uint32_t count, uint32_t to,
                                uint32_t to_stride)
{
    uint32_t from = address - first;
    return from % stride || from / stride >= count ? address : to + to_stride * (from / stride);
}

/* The aliases of EICS, EIMS, EIMC and EIAM cover bits 15:0 only. */
static inline uint32_t other_of_low(uint32_t address, uint32_t word)
{
    static const uint32_t low[][2] = {
        {NIC_EICS, 0x00A90}, {NIC_EIMS, 0x00AA0}, {NIC_EIMC, 0x00AB0}, {NIC_EIAM, 0x00AD0}};
    for (size_t k = 0; k < sizeof low / sizeof *low && word <= 0xFFFF; k++)
        if (address == low[k][0])
            return low[k][1];
    return address;
}

static inline uint32_t other_address(uint32_t address)
{
    address = other_in(address, NIC_CTRL, 4, 1, 0x00004, 4);
    address = other_in(address, NIC_SRRCTL(0), 0x40, 16, 0x02100, 4);
    address = other_in(address, NIC_RAL(0), 8, 16, 0x05400, 8);
    address = other_in(address, NIC_RAH(0), 8, 16, 0x05404, 8);
    address = other_in(address, NIC_MRQC, 4, 1, 0x0EC80, 4);
    address = other_in(address, NIC_RETA(0), 4, 32, 0x0EB00, 4);
    address = other_in(address, NIC_RSSRK(0), 4, 10, 0x0EB80, 4);
    return other_in(address, NIC_PSRTYPE(0), 4, 16, 0x05480, 4);
}

#define nicx_read32(address) nicx_read32(other_address(address))
#define nicx_write32(address, word) nicx_write32(other_of_low(other_address(address), word), word)

#endif
