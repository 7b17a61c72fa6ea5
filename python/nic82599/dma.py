"""DMA accesses, shared by drivers under the report card and scenarios of the explorer."""

from __future__ import annotations


class Dma:
    """Reads and writes 64-bit words and descriptors in DMA memory, each with a single access."""

    def dma_read(self, bus: int, length: int) -> bytes:
        raise NotImplementedError

    def dma_write(self, bus: int, data: bytes) -> bool:
        raise NotImplementedError

    def get64(self, bus: int) -> int:
        return int.from_bytes(self.dma_read(bus, 8), "little")

    def put64(self, bus: int, value: int) -> bool:
        return self.dma_write(bus, value.to_bytes(8, "little"))

    def descriptor(self, ring: int, slot: int) -> bytes:
        """Reads a descriptor with a single access, which is one point; two `get64` calls would be two points. Parse it
        with nic82599.descriptors."""
        return self.dma_read(ring + 16 * slot, 16)

    def put_descriptor(self, ring: int, slot: int, data: bytes) -> bool:
        """Writes a descriptor, as nic82599.descriptors packs it, with a single access. Returns what `dma_write`
        returns."""
        return self.dma_write(ring + 16 * slot, data)
