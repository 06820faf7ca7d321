#!/usr/bin/env python3
# SPDX-License-Identifier: MIT
"""Times `reclaim` over a disc of 518 MB with 10,000 lost runs in all of its zones, beside `check` of the same disc and as many syncs.

usage: tools/run bench/reclaim PROGRAM

It has to take at most twice the time of `check`, and that of two syncs for each zone. The program runs twice: under the recorder,
which gives its syncs, and without it, for the time.
"""
from __future__ import annotations

import os
import shutil
import subprocess
import sys
import tempfile
import time

from tools.bench.compact import MIB, copied, totals, written
from tools.files import built_shim
from tools.images.fragmented import Fragmenter, hard_disc
from tools.images.volumes import NewVolume

LOST, ROUNDS = 10000, 7


def losing() -> NewVolume:
    """A volume cut into short runs, every second of which is lost, but for those of its files and the holes."""
    volume = hard_disc(10, 15, 10, 62)
    Fragmenter(volume, 1, 2).fill(100)
    lost = [volume.new_identifier() for at in range(100)]
    holes = [(zone, at) for zone, runs in enumerate(volume.runs) for at, (length, owner) in enumerate(runs) if owner is None]
    for number in range(LOST):
        zone, at = holes[number * len(holes) // LOST]
        volume.runs[zone][at] = volume.runs[zone][at][0], lost[number % len(lost)]
    return volume


def seconds(program: str, image: str, script: bytes) -> float:
    """The least of ROUNDS runs, each over a copy."""
    taken = []
    for turn in range(ROUNDS):
        copied(image, image + ".work")
        start = time.monotonic()
        subprocess.run([program, image + ".work"], input=script, stdout=subprocess.DEVNULL, check=True)
        taken.append(time.monotonic() - start)
    return min(taken)


def syncing(path: str, count: int, piece: int) -> float:
    """Writes and syncs so many pieces."""
    start = time.monotonic()
    with open(path, "r+b", buffering=0) as file:
        for number in range(count):
            os.pwrite(file.fileno(), bytes(piece), number * piece)
            os.fsync(file.fileno())
    return time.monotonic() - start


def main(program: str) -> bool:
    program = os.path.realpath(program)
    with tempfile.TemporaryDirectory(dir=os.getcwd()) as folder:
        image, record = (os.path.join(folder, name) for name in ("image", "record"))
        volume = losing()
        runs = written(image, volume)
        copied(image, image + ".work")
        told = subprocess.run([program, image + ".work"], input=b"reclaim\n", stdout=subprocess.PIPE, check=True,
                              env={"LD_PRELOAD": built_shim(folder), "OUTSIDE_RECORD": record}).stdout
        moved, _, syncs = totals(record)
        check, reclaim = (seconds(program, image, script) for script in (b"check\n", b"reclaim\n"))
        beside = syncing(image + ".work", syncs, volume.shape.sector)
    zones = len(volume.runs)
    print("%d runs in %d zones: %s; %.1f MB and %d syncs; check %.3f s, reclaim %.3f s, as many syncs %.3f s" % (
        runs, zones, told.decode().split("\n", maxsplit=1)[0], moved / MIB, syncs, check, reclaim, beside))
    return syncs <= 2 * zones and reclaim <= 2 * check + beside


if __name__ == "__main__":
    if len(sys.argv) != 2:
        sys.exit(__doc__)
    sys.exit(0 if main(sys.argv[1]) else 1)
