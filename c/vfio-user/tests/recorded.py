#!/usr/bin/env python3
"""Checks a recording of the server's device, as the test's client produces one: recorded.py FILE. It replays with the
library, it contains the guest's addresses, few of its steps are idle, and it converts to a page and a trace.
"""

from __future__ import annotations

import json
import sys
from pathlib import Path

sys.dont_write_bytecode = True
sys.path.insert(0, str(Path(__file__).resolve().parents[3] / "python"))
from nic82599 import places  # noqa: E402
from nic82599.tools import perfetto  # noqa: E402
from nic82599.tools.page import Data  # noqa: E402
from nic82599.tools.recording import of_recording  # noqa: E402

WANTED = [
    "guest: the ring of rx 0 is at 0x40001000, 64 slots, of function 0",
    "guest: the ring of tx 0 is at 0x40002000, 64 slots, of function 0",
    "guest: rx 0 slot 5 at 0x40001050, buffer at 0x40012800",
    "guest: tx 0 slot 3 at 0x40002030, buffer at 0x40080014",
]


def main(words: list[str]) -> int:
    try:
        places.library()
    except places.Missing as missing:
        print(f"recorded: left out: {missing}")
        return 0
    run = of_recording(words[0], 100_000)
    said = {run.comment(step.pc) for step in run.steps}
    # only an idle step shows that no more messages are due
    idle = sum(step.kind == "idle" and not run.shown(step.pc).startswith("int") for step in run.steps)
    assert not [it for it in run.notes if "otherwise" in it], run.notes
    assert not [it for it in WANTED if it not in said], said
    assert idle < 15, f"{idle} of {len(run.steps)} events are idle"
    assert WANTED[0] in Data(run).whole()["comments"]
    traced = json.loads(perfetto.trace(run))["traceEvents"]
    assert sum(it.get("args", {}).get("note") == WANTED[3] for it in traced) >= 2
    assert sum(it.get("name", "").startswith("frame out") and it["ph"] == "b" for it in traced) == 40
    print(f"recorded: {len(run.steps)} events, {idle} of them idle")
    return 0


if __name__ == "__main__":
    sys.exit(main(sys.argv[1:]))
