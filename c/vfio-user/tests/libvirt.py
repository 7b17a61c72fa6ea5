#!/usr/bin/env python3
"""Checks that the example for libvirt has shared memory, and QEMU's options for a card at a root port: libvirt.py
FILE."""

from __future__ import annotations

import json
import sys
from xml.etree import ElementTree

QEMU = "{http://libvirt.org/schemas/domain/qemu/1.0}"


def main(words: list[str]) -> int:
    domain = ElementTree.parse(words[0]).getroot()
    access, source = domain.find("memoryBacking/access"), domain.find("memoryBacking/source")
    assert access is not None and access.get("mode") == "shared"
    assert source is not None and source.get("type") == "memfd"
    given = [it.get("value") or "" for it in domain.iter(f"{QEMU}arg")]
    assert given[::2] == ["-device", "-device"]
    port = dict(it.split("=") for it in given[1].split(",")[1:])
    card = json.loads(given[3])
    assert given[1].startswith("pcie-root-port,") and card["driver"] == "vfio-user-pci" and card["bus"] == port["id"]
    assert card["socket"]["type"] == "unix" and card["socket"]["path"].startswith("/")
    print("libvirt: passed")
    return 0


if __name__ == "__main__":
    sys.exit(main(sys.argv[1:]))
