"""Known defects that a search finds, each with one command. docs/found.md describes them."""

from __future__ import annotations

from dataclasses import dataclass


@dataclass(frozen=True)
class Case:
    """A defect: the kernel and driver that contain it, and the verdict and pattern that identify it."""

    kernel: str
    driver: str
    kind: str
    pattern: str
    text: str


CASES = {
    "ixgbe-down-lockup": Case(
        "linux-6.1", "ixgbe", "lockup", "ixgbe_clean_tx_ring",
        "ixgbe_watchdog_subtask checks __IXGBE_DOWN, finds that the link is up, and wakes the transmit queues. "
        "Between the check and the wake, ixgbe_down, which doesn't wait for the watchdog, stops the queues and empties "
        "their rings. A frame then enters such a ring, and the next ixgbe_down loops over it forever",
    ),
}  # fmt: skip
