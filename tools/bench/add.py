#!/usr/bin/env python3
# SPDX-License-Identifier: MIT
"""Compares the time of `fcdisc add` of 5,000 files to a hard disc of 167 MB with that of `mcopy -s` of them to a FAT disc of that size.

usage: tools/run bench/add FCDISC FCORE [ROUNDS [FILES]]    in a folder for temporary files, as TMPDIR says; needs mtools
       tools/run bench/add --alone FCDISC...    Python's part of each, in turn, over a program that only answers; needs a C compiler
It is not part of the gate: what it measures depends on the machine. TMPDIR has to lie on a disk, or, with --alone, in memory. Add may take
1.5 times as long.
"""
from __future__ import annotations

import os
import shutil
import subprocess
import sys
import tempfile
from typing import Dict, List, Tuple

from tools.bench.extract import seconds
from tools.files import TOOLS, compiler
from tools.images.volumes import NewVolume, record_bytes

ALLOWED = 1.5
ZONES, ZONE_BITS, BIT_BYTES = 20, 8160, 1024
SIZE = (ZONES * ZONE_BITS - 480) * BIT_BYTES
IN_FOLDER = 100  # files


def empty_disc() -> bytearray:
    volume = NewVolume(record_bytes(10, 15, 10, ZONES, 32, 0x300, SIZE, version=1, root_size=4096), True)
    volume.root.size = 4096
    volume.take(2, ZONES // 2, 2 * ZONES)
    volume.take(2, 0, 16)
    volume.take(volume.new_identifier(), 0, 16)
    return volume.image()


def write(path: str, content: bytes) -> None:
    with open(path, "wb") as file:
        file.write(content)


def prepared(folder: str, files: int) -> Tuple[str, str, str]:
    """A tree of files, the place of a disc, and an empty one."""
    tree, disc, empty = (os.path.join(folder, name) for name in ("tree", "disc.adf", "empty.adf"))
    for at in range(files):
        place = os.path.join(tree, "D%02d" % (at // IN_FOLDER))
        os.makedirs(place, exist_ok=True)
        write(os.path.join(place, "F%02d" % (at % IN_FOLDER)), b"%08d" % at * (1 + at % 250))
    write(empty, empty_disc())
    return tree, disc, empty


def alone(fcdiscs: List[str], rounds: int = 9, files: int = 5000) -> None:
    with tempfile.TemporaryDirectory() as folder:
        tree, disc, empty = prepared(folder, files)
        answers = os.path.join(folder, "answers")
        subprocess.run([*compiler(), "-O2", "-o", answers, os.path.join(TOOLS, "bench", "answers.c")], check=True)
        found: Dict[str, List[float]] = {}
        for _ in range(rounds):
            for fcdisc in fcdiscs:
                shutil.copy(empty, disc)
                found.setdefault(fcdisc, []).append(seconds([fcdisc, "add", disc, tree], env={**os.environ, "FCORE": answers})[1])
                os.remove(disc + "~")
        for fcdisc, all_seconds in found.items():
            print("%.2f s of the processor, the least of %d: %s" % (min(all_seconds), rounds, fcdisc))


def main(fcdisc: str, fcore: str, rounds: int = 3, files: int = 5000) -> bool:
    with tempfile.TemporaryDirectory() as folder:
        tree, disc, empty = prepared(folder, files)
        adds, copies = [], []
        for at in range(rounds):
            fat = os.path.join(folder, "fat%d" % at)
            shutil.copy(empty, disc)
            seconds(["mformat", "-C", "-F", "-T", str(SIZE // 512), "-i", fat, "::"])
            os.sync()
            adds.append(seconds([fcdisc, "add", disc, tree], env={**os.environ, "FCORE": os.path.abspath(fcore)}))
            os.sync()
            copies.append(seconds(["mcopy", "-s", "-i", fat, tree, "::"]))
            os.remove(disc + "~")
    for at, what in enumerate(("on the clock", "of the processor")):
        for name, found in (("add", adds), ("mcopy -s", copies)):
            print("%-8s %s s %s" % (name, " ".join("%.2f" % one[at] for one in found), what))
    ratio = min(one[0] for one in adds) / min(one[0] for one in copies)
    print("add takes %.2f times the time of mcopy -s on the clock; %.1f times are allowed" % (ratio, ALLOWED))
    return ratio <= ALLOWED


if __name__ == "__main__":
    if sys.argv[1:2] == ["--alone"] and len(sys.argv) > 2:
        alone(list(map(os.path.abspath, sys.argv[2:])))
        sys.exit(0)
    if len(sys.argv) not in (3, 4, 5):
        sys.exit(__doc__)
    sys.exit(0 if main(*sys.argv[1:3], *map(int, sys.argv[3:])) else 1)
