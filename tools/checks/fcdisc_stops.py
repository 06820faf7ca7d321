#!/usr/bin/env python3
# SPDX-License-Identifier: MIT
"""Runs fcdisc until it is about to change the host for the Nth time, and sends a signal then, for tools/checks/fcdisc_table.py.

usage: python3 -S tools/checks/fcdisc_stops.py SIGNAL N TOLD FCDISC WORDS...
Changes are files that are made or opened to be written, names that are given, moved or taken away, and what is written into a file: of
that half is written. The signal goes to all processes of the group, as from a terminal. With N 0 none is sent; the file TOLD gets
the number of changes that were met.
"""
import os
import runpy
import signal
import stat
import sys
from typing import List, Tuple

CHANGES = {"os.mkdir", "os.rmdir", "os.link", "os.symlink", "os.rename", "os.remove", "os.truncate", "os.utime", "os.setxattr", "os.chmod",
           "os.chown"}
WRITES = os.O_WRONLY | os.O_RDWR | os.O_CREAT


class Stops:
    """Counts what changes the host."""

    def __init__(self, number: int, at: int) -> None:
        self.number, self.at, self.met, self.is_over = number, at, 0, False
        self.write = os.write
        os.write = self.half_written  # a write is no event of Python's
        sys.addaudithook(self.hear)

    def hear(self, event: str, words: Tuple[object, ...]) -> None:
        if event == "open":
            path, _, flags = words
            if not isinstance(path, (str, bytes)) or path == os.devnull or not isinstance(flags, int) or not flags & WRITES:
                return
        elif event not in CHANGES:
            return
        self.meet()

    def half_written(self, number: int, piece: bytes) -> int:
        if stat.S_ISREG(os.fstat(number).st_mode):
            half = len(piece) // 2 if self.met + 1 == self.at and not self.is_over else 0
            self.write(number, piece[:half])
            self.meet()
            return half + self.write(number, piece[half:])  # if the signal doesn't end this thread
        return self.write(number, piece)

    def meet(self) -> None:
        if not self.is_over:
            self.met += 1
            if self.met == self.at:
                self.is_over = True
                os.killpg(0, self.number)


def main(number: str, at: str, told: str, fcdisc: str, words: List[str]) -> None:
    stops = Stops(int(number), int(at))
    sys.argv = [fcdisc, *words]
    sys.dont_write_bytecode = True
    signal.signal(signal.SIGINT, signal.default_int_handler)
    try:
        runpy.run_path(fcdisc, run_name="__main__")
    finally:
        stops.is_over = True
        with open(told, "w") as file:
            file.write(str(stops.met))


if __name__ == "__main__":
    main(sys.argv[1], sys.argv[2], sys.argv[3], sys.argv[4], sys.argv[5:])
