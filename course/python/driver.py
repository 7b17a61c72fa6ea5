"""A driver for the 82599 in six milestones. README.md explains how to work on it.

Registers have the datasheet's names, such as `RDT[0]`. Their bits have numbers here, which the comments name;
c/include/nic82599_regs.h lists all bits, docs/DESCRIPTORS.md the fields of descriptors. The report card provides
`self.read32`, `self.write32`, `self.wait` and so on (nic82599.explore).
"""

from nic82599.descriptors import is_sent, received, rx_descriptor, tx_descriptor  # noqa: F401
from nic82599.drive import MAILBOX_WORDS, Can, Driver, Rss, Setup  # noqa: F401

ALL_CAUSES = 0x7FFF_FFFF
BUFFER = 2048
ENABLE = 1 << 25  # in RXDCTL and TXDCTL
# MRQC's bit for each type that can be hashed (docs/DESCRIPTORS.md lists the types)
HASHED = {1: 16, 2: 17, 3: 21, 5: 20, 7: 22, 8: 23}


class Ring:
    """A ring of descriptors, and a buffer for each. In transmit rings, `used` slots starting at `oldest` are in
    flight."""

    def __init__(self) -> None:
        self.bus = 0
        self.buffers: list[int] = []
        self.next = self.oldest = self.used = 0

    def after(self, slot: int) -> int:
        return (slot + 1) % len(self.buffers)


def words_of(given: bytes) -> list[int]:
    """Returns the bytes as registers' values, four bytes each."""
    return [int.from_bytes(given[at : at + 4], "little") for at in range(0, len(given), 4)]


class Course(Driver):
    name = "course"
    can = Can.HOST | Can.NO_MODERATION | Can.ONE_BUFFER
    queues = 4

    def __init__(self) -> None:
        self.rx: list[Ring] = []
        self.tx: list[Ring] = []
        self.wanted: Rss | None = None
        self.setup: Setup

    # --- given: memory ---

    def take_ring(self, ring: Ring) -> bool:
        ring.bus = self.dma_alloc(16 * self.setup.slots) or 0
        while ring.bus and len(ring.buffers) < self.setup.slots:
            buffer = self.dma_alloc(BUFFER)
            if buffer is None:
                return False
            ring.buffers.append(buffer)
        return ring.bus != 0

    def take_memory(self) -> bool:
        """Returns False if an allocation fails, and keeps what was allocated before."""
        for _ in range(self.setup.queues):
            for side in (self.rx, self.tx):
                side.append(Ring())
                if not self.take_ring(side[-1]):
                    return False
        return True

    def give_memory(self) -> None:
        for ring in self.rx + self.tx:
            for buffer in ring.buffers:
                self.dma_free(buffer)
            if ring.bus:
                self.dma_free(ring.bus)
        self.rx, self.tx = [], []

    # --- given: helpers ---

    def mask_all(self) -> None:
        self.write32("EIMC", ALL_CAUSES)

    def set_bits(self, register: str, bits: int) -> None:
        """Sets bits of a register and leaves the others unchanged."""
        self.write32(register, self.read32(register) | bits)

    def switch_queue(self, control: str, word: int) -> None:
        """Writes a queue's RXDCTL or TXDCTL. The queue is on or off only when its ENABLE reads accordingly."""
        self.write32(control, word)
        # TODO 2: wait until ENABLE reads as written. A loop that waits for the device must call self.wait.

    # --- milestone 1: the device ---

    def set_up_device(self) -> None:
        self.mask_all()
        # TODO 1: reset the device (RST, bit 26 of CTRL), then mask all causes again.
        # TODO 1: write the driver's address, self.setup.address, to RAL[0] and RAH[0], and set AV (bit 31 of RAH).
        # Accept broadcast frames (BAM, bit 10 of FCTRL). words_of turns bytes into registers' values; the last two
        # bytes go into RAH.
        # TODO 1: set RXCRCSTRP, TXCRCEN and TXPADEN in HLREG0 (bits 1, 0 and 10), and CRCSTRIP, RSCACKC and FCOE_WRFIX
        # in RDRXCTL (bits 1, 25 and 26). Leave the other bits of both registers unchanged.
        loaded = 0
        # TODO 1: set DRV_LOAD (bit 28) in the value for CTRL_EXT. It tells the firmware that a driver is loaded.
        # TODO 6: if there are virtual functions (self.setup.functions above 0), select 64 pools (VT_MODE 3, bits 1:0 of
        # GCR_EXT). Also set PFRSTD (bit 14 of CTRL_EXT), which tells the virtual functions that the device is ready.
        self.write32("CTRL_EXT", loaded)

    def leave_device(self) -> None:
        self.mask_all()
        # TODO 1: disable reception (RXCTRL), clear DRV_LOAD, and clear all causes in EICR by writing 1 to each.

    # --- milestone 2: receiving frames ---

    def post(self, ring: Ring, slot: int) -> None:
        """Prepares a slot of a receive ring for the device."""
        self.put_descriptor(ring.bus, slot, rx_descriptor(ring.buffers[slot]))

    def kind_of_buffers(self) -> int:
        """Returns the value of SRRCTL, which describes the buffers."""
        kind = 0
        # TODO 2: set DESCTYPE (bits 27:25) to 1, and BSIZEPACKET (bits 4:0) to BUFFER in KB.
        # TODO 3: with several queues, set DROP_EN (bit 28): a full queue then drops its frames instead of blocking the
        # others.
        return kind

    def start_receive(self, queue: int) -> None:
        ring = self.rx[queue]
        ring.next = 0
        for slot in range(self.setup.slots):
            self.post(ring, slot)
        self.write32(f"SRRCTL[{queue}]", self.kind_of_buffers())
        # TODO 2: write the ring's address and its length in bytes (RDBAL, RDBAH, RDLEN), and set head and tail to 0.
        # Enable the queue through RXDCTL (switch_queue). Only then move the tail, so that the device owns all slots but
        # one. Call self.wmb before you move the tail: it orders earlier writes before later ones.

    def receive(self, queue: int) -> bytes | None:
        """Returns the next frame, or None if there is none."""
        # TODO 2: the ring is self.rx[queue], the slot its `next`. Read the descriptor once (self.descriptor) and decode
        # it (`received`). If it isn't `done`, no frame has arrived. Otherwise call self.rmb and read `length` bytes
        # from the buffer (self.dma_read). Return the slot to the device: call self.post and self.wmb, and move the tail
        # to it. The next slot is ring.after(slot).
        return None

    # --- milestone 3: several queues ---

    def set_rss(self) -> None:
        """Spreads flows over the queues according to self.wanted: key, table and types."""
        if self.wanted is None:
            return
        mode = 1  # MRQE
        for kind, bit in HASHED.items():
            mode |= (self.wanted.types >> kind & 1) << bit
        # TODO 3: write the key to RSSRK[0] to RSSRK[9] and the table to RETA[0] to RETA[31], four bytes per register
        # (words_of). Set PCSD (bit 13 of RXCSUM), so that the descriptor contains the hash. Write `mode` to MRQC.

    def rss(self, wanted: Rss) -> bool:
        self.wanted = wanted
        self.set_rss()
        return True

    # --- milestone 4: interrupts ---

    def set_interrupts(self) -> None:
        # TODO 4: assign vector q to both sides of queue q. IVAR[q // 2] has a receive byte and a transmit byte for the
        # even queue, then both for the odd one; set 0x80 in each valid byte. In GPIE set MULTIPLE_MSIX (bit 4), OCD
        # (5), EIAME (30) and PBA_SUPPORT (31). In EIAC and EIAM set the causes of the queues, bit q for queue q: a
        # message then clears its cause and masks it. Enable the causes in EIMS last.
        pass

    def interrupt(self, vector: int) -> int:
        """Handles a vector's message. Returns the queues to poll, bit q for queue q."""
        # TODO 4: return the bit of this vector's queue.
        return 0

    def rearm(self, queue: int) -> None:
        """Called after a queue has been polled until it was empty."""
        # TODO 4: enable the queue's cause again, and no other cause.

    # --- milestone 5: sending frames ---

    def start_transmit(self, queue: int) -> None:
        ring = self.tx[queue]
        ring.next = ring.oldest = ring.used = 0
        # TODO 5: set TE (bit 0 of DMATXCTL). Set up the ring as on the receive side (TDBAL, TDBAH, TDLEN, TDH, TDT),
        # and enable the queue through TXDCTL. The tail stays 0, because the device owns no slot yet.

    def reclaim(self, queue: int) -> int:
        """Reclaims the slots of sent frames. Returns how many frames are still unsent."""
        ring = self.tx[queue]
        # TODO 5: when the oldest slot's frame is sent, the device sets DD in its descriptor (self.descriptor, is_sent).
        # Free each such slot; the next slot is then the oldest.
        return ring.used

    def send(self, queue: int, frame: bytes) -> bool:
        """Returns False if the ring is full, or the frame is longer than the setup allows."""
        # TODO 5: keep one slot free, otherwise head and tail would meet. Write the bytes to the slot's buffer
        # (self.dma_write), build a descriptor (tx_descriptor), and write it (self.put_descriptor). Then call self.wmb
        # and move the tail.
        return False

    # --- open and close ---

    def start(self) -> None:
        self.set_up_device()
        self.set_rss()
        # before reception is enabled, so that early frames raise a message
        if self.setup.interrupts:
            self.set_interrupts()
        for queue in range(self.setup.queues):
            self.start_receive(queue)
            self.start_transmit(queue)
        # TODO 2: enable reception (RXEN, bit 0 of RXCTRL), as the last step.

    def stop_queues(self) -> None:
        for queue in range(self.setup.queues):
            # TODO 2: disable the receive queue. Until it is disabled, the device may write to its memory.
            pass
            # TODO 5: disable the transmit queue.

    def open(self, setup: Setup) -> bool:
        self.setup = setup
        if not self.take_memory():
            # TODO 2: if an allocation fails, free what was allocated and return False.
            pass
        self.start()
        return True

    def close(self) -> None:
        self.mask_all()
        self.stop_queues()
        self.leave_device()
        self.give_memory()

    # --- milestone 6: a reset during traffic, and the virtual functions' mailboxes ---

    def reset(self) -> bool:
        """Called after a fault or a hang. Sets everything up again with the same memory. Frames may be lost."""
        # TODO 6: restore the state after open: the rings start at slot 0 again. Keep the setup and the RSS settings.
        return False

    def is_asked(self, vf: int) -> bool:
        return bool(self.read32(f"PFMBICR[{vf // 16}]") >> vf % 16 & 1)

    def take_mailbox(self, vf: int) -> bool:
        """Takes virtual function vf's mailbox (PFU, bit 3). Returns False if the virtual function owns it."""
        self.write32(f"PFMAILBOX[{vf}]", 1 << 3)
        return bool(self.read32(f"PFMAILBOX[{vf}]") & 1 << 3)

    def mailbox_send(self, vf: int, words: tuple[int, ...]) -> bool:
        """Sends a message to virtual function vf. Returns False if its mailbox isn't free now."""
        # TODO 6: take the mailbox. If it contains a request from the virtual function (is_asked), release it (write 0)
        # and return False. Otherwise write the words, starting at PFMBMEM[16 * vf]. STS (bit 0 of PFMAILBOX) announces
        # them and releases the mailbox.
        return False

    def mailbox_receive(self, vf: int) -> tuple[int, ...] | None:
        """Receives a message from virtual function vf. Returns None if there is none."""
        # TODO 6: if there is a request, take the mailbox, so that the virtual function can't overwrite it. Clear the
        # virtual function's bit in PFMBICR by writing 1, read MAILBOX_WORDS words, and acknowledge (ACK, bit 1 of
        # PFMAILBOX).
        return None
