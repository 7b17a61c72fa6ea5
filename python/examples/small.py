"""The smallest driver with a report card: it receives on one queue, with interrupts or by polling.

    python3 -m nic82599.drive python/examples/small.py -o /tmp/card
"""

from nic82599.descriptors import received, rx_descriptor
from nic82599.drive import Can, Driver, Setup

ENABLE = 1 << 25
CAUSE = 1
ALL_CAUSES = 0x7FFF_FFFF


class Small(Driver):
    name = "small"
    can = Can.NO_ADDRESS | Can.NO_HEADS | Can.NO_MODERATION

    def __init__(self) -> None:
        self.ring = 0
        self.buffers: list[int] = []
        self.next = 0

    def give_memory_back(self) -> None:
        while self.buffers:
            self.dma_free(self.buffers.pop())
        if self.ring:
            self.dma_free(self.ring)
        self.ring = 0

    def take_memory(self, slots: int) -> bool:
        """Allocates the ring and the buffers. Returns False if an allocation fails; `give_memory_back` frees what was
        allocated before."""
        self.ring = self.dma_alloc(16 * slots) or 0
        while self.ring and len(self.buffers) < slots:
            buffer = self.dma_alloc(2048)
            if buffer is None:
                return False
            self.buffers.append(buffer)
        return self.ring != 0

    def post(self, slot: int) -> None:
        self.put_descriptor(self.ring, slot, rx_descriptor(self.buffers[slot]))

    def set_enable(self, enable: int) -> None:
        """Waits until the queue reports the requested state."""
        self.write32("RXDCTL[0]", enable)
        while self.read32("RXDCTL[0]") & ENABLE != enable:
            self.wait()

    def start_queue(self) -> None:
        for slot in range(len(self.buffers)):
            self.post(slot)
        self.write32("RDBAL[0]", self.ring & 0xFFFF_FFFF)
        self.write32("RDBAH[0]", self.ring >> 32)
        self.write32("RDLEN[0]", 16 * len(self.buffers))
        self.write32("SRRCTL[0]", 1 << 25 | 2)  # DESCTYPE 1, buffers of 2 KB
        self.set_enable(ENABLE)
        self.wmb()
        self.write32("RDT[0]", len(self.buffers) - 1)

    def set_up_device(self) -> None:
        self.write32("EIMC", ALL_CAUSES)
        self.write32("CTRL", 1 << 26)  # RST
        self.write32("EIMC", ALL_CAUSES)
        self.write32("CTRL_EXT", 1 << 28)  # DRV_LOAD
        self.write32("FCTRL", 1 << 10 | 1 << 9)  # BAM, UPE
        self.write32("HLREG0", self.read32("HLREG0") | 1 << 1)  # RXCRCSTRP
        self.write32("RDRXCTL", self.read32("RDRXCTL") | 1 << 26 | 1 << 25 | 1 << 1)  # FCOE_WRFIX, RSCACKC, CRCSTRIP

    def start_interrupts(self) -> None:
        self.write32("GPIE", 1 << 31 | 1 << 30 | 1 << 5 | 1 << 4)  # PBA_SUPPORT, EIAME, OCD, MULTIPLE_MSIX
        self.write32("IVAR[0]", 0x80)  # queue 0 receive: vector 0
        self.write32("EIAC", CAUSE)
        self.write32("EIAM", CAUSE)
        self.write32("EIMS", CAUSE)

    # --- what the card calls ---

    def open(self, setup: Setup) -> bool:
        self.next = 0
        if not self.take_memory(setup.slots):
            self.give_memory_back()
            return False
        self.set_up_device()
        self.start_queue()
        if setup.interrupts:
            self.start_interrupts()
        self.write32("RXCTRL", 1)
        return True

    def close(self) -> None:
        self.write32("EIMC", ALL_CAUSES)
        self.set_enable(0)
        self.write32("RXCTRL", 0)
        self.write32("CTRL_EXT", 0)
        self.write32("EICR", ALL_CAUSES)
        self.give_memory_back()

    def receive(self, queue: int) -> bytes | None:
        slot = self.next
        written = received(self.descriptor(self.ring, slot))
        if not written.done:
            return None
        self.rmb()
        frame = self.dma_read(self.buffers[slot], written.length)
        self.post(slot)
        self.wmb()
        self.write32("RDT[0]", slot)
        self.next = (slot + 1) % len(self.buffers)
        return frame

    def interrupt(self, vector: int) -> int:
        """Requests a poll of queue 0; the device masked its cause (EIAM) when it sent the message."""
        return 1

    def rearm(self, queue: int) -> None:
        self.write32("EIMS", CAUSE)
