#!/usr/bin/env python3
# SPDX-License-Identifier: MIT
"""Compares the time of a conversion of an F disc with 77 files in each of 40 directories to E+ with that of `extract` and `add` of them.

usage: tools/run bench/conversion FCDISC FCORE FCONVERT [ROUNDS]    in a folder for temporary files, as TMPDIR says; three rounds by default
It is not part of the gate: what it measures depends on the machine. Every sixth file holds some bytes: an E+ disc has no room for more.
The images lie in memory, if there is such a folder, since fconvert syncs after each step. fconvert may take 1.5 times as long.
"""
from __future__ import annotations

import os
import sys
import tempfile
from typing import Dict, List, Tuple

from tools.bench.extract import seconds
from tools.files import MEMORY
from tools.images.volumes import FRESH_NEW

ALLOWED = 1.5
DIRECTORIES, FILES = 40, 77


def source() -> bytes:
    """The F disc."""
    volume = FRESH_NEW["F"]()
    for at in range(DIRECTORIES):
        holder = volume.root.insert(volume.directory(volume.root, b"Dir%02d" % at))
        for number in range(FILES):
            data = b"%06d" % (FILES * at + number) * (1 + number % 40) if number % 6 == 0 else b""
            holder.insert(volume.file(b"File%02d" % number, data, load=0xFFFFFF00 + number, execution=at))
    return bytes(volume.image())


def main(fcdisc: str, fcore: str, fconvert: str, rounds: int = 3) -> bool:
    environment = {**os.environ, "FCORE": os.path.abspath(fcore), "FCONVERT": os.path.abspath(fconvert)}
    found: Dict[str, List[Tuple[float, float]]] = {"fconvert": [], "extract and add": [], "fcdisc convert": []}
    with tempfile.TemporaryDirectory(dir=MEMORY) as folder:
        image = os.path.join(folder, "f.adf")
        with open(image, "wb") as file:
            file.write(source())
        for at in range(rounds):
            tree, new, other, third = (os.path.join(folder, "%s%d" % (name, at)) for name in ("tree", "new", "other", "third"))
            found["fconvert"].append(seconds([environment["FCONVERT"], "E+", image, new], env=environment))
            steps = [seconds([fcdisc, *words], env=environment) for words in (["extract", image, tree], ["new", "E+", other], ["add", other, tree])]
            found["extract and add"].append((sum(one[0] for one in steps), sum(one[1] for one in steps)))
            found["fcdisc convert"].append(seconds([fcdisc, "convert", "E+", image, third], env=environment))
    ratios = []
    for at, what in enumerate(("on the clock", "of the processor")):
        for name, times in found.items():
            print("%-16s %s s %s" % (name, " ".join("%.2f" % one[at] for one in times), what))
        ratios.append(min(one[at] for one in found["fconvert"]) / min(one[at] for one in found["extract and add"]))
        print("fconvert takes %.2f times the time of extract and add %s; %.1f times are allowed" % (ratios[-1], what, ALLOWED))
    return ratios[0] <= ALLOWED


if __name__ == "__main__":
    if len(sys.argv) not in (4, 5):
        sys.exit(__doc__)
    sys.exit(0 if main(*sys.argv[1:4], *map(int, sys.argv[4:])) else 1)
