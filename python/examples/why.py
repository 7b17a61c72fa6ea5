"""A driver that forgets to write a register receives nothing and sees no error. `Nic.why` reports the cause."""

from __future__ import annotations

from nic82599 import Nic
from nic82599.descriptors import rx_descriptor

FRAME = bytes.fromhex("020000000001 020000000002 0800 45") + bytes(45)

# A correct setup of queue 3.
WRITES = {
    "RXCTRL": 1,
    "FCTRL": 0x200,
    "MRQC": 0x20001,
    "RETA[0]": 3,
    "RDLEN[3]": 128,
    "SRRCTL[3]": 0x0200_0002,
    "RXDCTL[3]": 0x0200_0000,
    "GPIE": 0x10,
    "IVAR[1]": 0x0085_0000,
    "EIMS": 0x20,
    "RDT[3]": 1,
}


def receive(forgotten: str) -> None:
    """Receives a frame with everything set up except one register."""
    with Nic(blocks=2) as nic:
        nic.lend()
        nic.memory[0:16] = rx_descriptor(0x800)
        for name, word in WRITES.items():
            if name != forgotten:
                nic[name] = word
        nic.settle(4)
        nic.arrive(FRAME)
        print("without", forgotten)
        for event in nic.steps(4):
            print("   ", event)  # a driver would handle each event before the next one
        print(nic.why())


for register in ("a mistake", "RDT[3]", "RXCTRL", "SRRCTL[3]", "IVAR[1]"):
    receive(register)
