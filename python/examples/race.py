"""The poll loop of c/examples/race.c, as it could appear in a driver. Nothing hints at the race: the search finds it.

    python3 python/examples/race.py            searches, and prints the schedule that fails
    python3 python/examples/race.py --fixed    without the line that loses a frame
    PYTHONPATH=python python3 -m pytest -p nic82599.pytest_plugin python/examples/race.py
                                               the same as tests (omit -p where the package is installed)
"""

from __future__ import annotations

import sys
from pathlib import Path

if __name__ == "__main__":
    sys.path.insert(0, str(Path(__file__).resolve().parents[1]))
from nic82599.explore import Failure, Scenario, search

CAUSE = 1 << 5
FRAMES = 2
# GPIE: MULTIPLE_MSIX, OCD and PBA_SUPPORT. With these, writing EICR clears a queue's cause, but reading it doesn't.
MSIX = 1 << 4 | 1 << 5 | 1 << 31


class Race(Scenario):
    """One queue, a handler that masks and schedules, and a poll loop that takes the completed slots."""

    name = "race"
    blocks = 2
    is_fixed = False

    def isr(self) -> None:
        self.write32("EIMC", CAUSE)
        self.scheduled = True

    def poll(self) -> None:
        while True:
            self.wait_until(lambda: self.scheduled)
            self.scheduled = False
            self.write32("EICR", CAUSE)
            while self.get64(16 * self.next + 8) & 1:
                self.next += 1
                self.got += 1
            if not self.is_fixed:
                self.write32("EICR", CAUSE)  # old causes must not interrupt
            self.write32("EIMS", CAUSE)

    def bring_up(self) -> None:
        for block in range(self.blocks):
            self.lend(block)
        for name, word in {"RXCTRL": 1, "FCTRL": 0x200, "RDLEN": 128, "SRRCTL": 0x02000002, "RXDCTL": 1 << 25}.items():
            self.write32(name, word)
        self.settle()
        for slot in range(7):
            self.put64(16 * slot, 2048)
        for name, word in {"RDT": 7, "GPIE": MSIX, "IVAR": 0x85, "EIAC": 0, "EIMS": CAUSE}.items():
            self.write32(name, word)

    def begin(self) -> None:
        self.scheduled, self.next, self.got = False, 0, 0
        self.service("poll", self.poll)
        self.handler("isr", self.isr, vector=5)
        for _ in range(FRAMES):
            self.frame(bytes.fromhex("02000000000102000000000288b5") + bytes(46))

    def end(self) -> str | None:
        return None if self.got == FRAMES else "a frame is in the ring, but nothing will poll it"


class Fixed(Race):
    name = "race_fixed"
    is_fixed = True


try:
    import pytest
except ImportError:  # the search doesn't need pytest
    pass
else:

    @pytest.mark.xfail(strict=True, raises=Failure)
    @pytest.mark.nic_schedules(500)
    def test_race() -> Scenario:
        return Race()

    @pytest.mark.nic_schedules(strategy="exhaustive", preemptions=1)
    def test_fixed() -> Scenario:
        return Fixed()


def main() -> int:
    if sys.argv[1:] not in ([], ["--fixed"]):
        print(f"usage: {sys.argv[0]} [--fixed]", file=sys.stderr)
        return 2
    try:
        search(Fixed() if "--fixed" in sys.argv else Race(), 2_000)
    except Failure as failure:
        print(failure)
        return 1
    print("no failure was found")
    return 0


if __name__ == "__main__":
    sys.exit(main())
