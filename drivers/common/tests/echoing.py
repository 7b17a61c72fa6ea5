#!/usr/bin/env python3
"""A stand-in for drivers/qemu/run and a kernel in it: sends each frame from the wire back to its sender, until its
standard input has something.

    echoing.py [WORDS..] --server=--wire=listen:PATH [WORDS..]

ECHOING=turn changes a byte of frame 5; ECHOING=silent sends nothing, and prints a line for each frame; ECHOING=verbose
prints 4 KB for each frame, so 100 frames fill its standard output unless someone reads it.
"""

from __future__ import annotations

import os
import select
import socket
import sys

START = "--server=--wire=listen:"
SAYS = {"silent": "kernel: a frame came", "verbose": "kernel: " + "0123456789abcdef" * 256}


def back(frame: bytes, how: str) -> bytes:
    """Returns the frame with its addresses exchanged."""
    end = bytearray(frame[12:])
    if how == "turn" and frame[14:18] == (5).to_bytes(4, "big"):
        end[-1] ^= 1
    return frame[6:12] + frame[:6] + end


def serve(wire: socket.socket, how: str) -> None:
    """Answers one connection, until it or standard input ends."""
    waiting = b""
    while True:
        if sys.stdin in select.select([wire, sys.stdin], [], [])[0]:
            sys.exit(0)
        part = wire.recv(65536)
        if not part:
            return
        waiting += part
        while len(waiting) >= 4 and len(waiting) >= (end := 4 + int.from_bytes(waiting[:4], "big")):
            frame, waiting = waiting[4:end], waiting[end:]
            if how in SAYS:
                print(SAYS[how], flush=True)
            if how != "silent":
                wire.sendall(len(frame).to_bytes(4, "big") + back(frame, how))


def main() -> None:
    listener = socket.socket(socket.AF_UNIX)
    listener.bind(next(it for it in sys.argv if it.startswith(START)).removeprefix(START))
    listener.listen()
    print("drivers/qemu/run: the server's control socket is /nowhere", flush=True)
    while sys.stdin not in select.select([listener, sys.stdin], [], [])[0]:
        serve(listener.accept()[0], os.environ.get("ECHOING", ""))


if __name__ == "__main__":
    main()
