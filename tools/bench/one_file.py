#!/usr/bin/env python3
# SPDX-License-Identifier: MIT
"""Times `create` of a large file beside dd of as many zeros, and `save` of 8 MB beside xxd, which only turns the digits into bytes.

usage: tools/run bench/one_file PROGRAM [ROUNDS]    in a folder for temporary files (TMPDIR) with 1.2 GB free; five rounds by default

The disc has 518 MB and is in memory when it is changed. In each round the contestants run in turn, and the least processor time of
each counts.
"""
from __future__ import annotations

import os
import random
import subprocess
import sys
import tempfile
from typing import Dict, List, Optional, Tuple

from tools.bench.changes import WORDS, empty_disc
from tools.bench.readings import run, seconds

CREATED, SAVED, BLOCK = 490_000_000, 8_000_000, 16384


def tasks(program: str, place: str) -> Dict[str, List[Tuple[str, List[str], Optional[str]]]]:
    """Of each task the contestants, the program first: name, words, and the file that is its standard input."""
    digits = random.Random(1).randbytes(SAVED).hex().upper()
    for name, text in (("digits", digits), ("save", "save $.S %s %s\n" % (WORDS, digits)), ("create", "create $.C %s %d\n" % (WORDS, CREATED))):
        with open(place + name, "w") as file:
            file.write(text)
    zeros = ["dd", "if=/dev/zero", "of=" + place + "work", "bs=%d" % BLOCK, "count=%d" % (CREATED // BLOCK), "conv=notrunc"]
    return {
        "create of %d bytes" % CREATED: [("fcore", [program, place + "work"], place + "create"), ("dd", zeros, None)],
        "save of %d bytes" % SAVED: [("fcore", [program, place + "work"], place + "save"), ("xxd -r -p", ["xxd", "-r", "-p", place + "digits", place + "bytes"], None)],
    }


def least(contestants: List[Tuple[str, List[str], Optional[str]]], place: str, rounds: int) -> Dict[str, float]:
    """The least seconds of each, each over a copy of the disc."""
    found: Dict[str, float] = {}
    for _ in range(rounds):
        for name, words, script in contestants:
            subprocess.run(["cp", "--sparse=always", place + "disc", place + "work"], check=True)
            taken = seconds(run(words, script))
            found[name] = min(taken, found.get(name, taken))
    return found


def main(program: str, rounds: int = 5) -> None:
    with tempfile.TemporaryDirectory() as folder:
        place = os.path.join(folder, "")
        empty_disc(place + "disc")
        for title, contestants in tasks(os.path.realpath(program), place).items():
            times = least(contestants, place, rounds)
            (own, other) = (times[name] for name, _, _ in contestants)
            print("%s: %.3f s, %s %.3f s, %.2f times as long" % (title, own, contestants[1][0], other, own / other), flush=True)


if __name__ == "__main__":
    if len(sys.argv) not in (2, 3):
        sys.exit(__doc__)
    main(sys.argv[1], *map(int, sys.argv[2:]))
