#!/usr/bin/env python3
# SPDX-License-Identifier: MIT
"""Compares the time of `fcdisc extract` of 50,000 files of a disc of 518 MB with that of `cp -r` of the extracted tree.

usage: tools/run bench/extract FCDISC FCORE [ROUNDS]    in a folder for temporary files, as TMPDIR says; three rounds by default
It is not part of the gate: what it measures depends on the machine. Extract may take at most five times as long.
"""
from __future__ import annotations

import os
import resource
import subprocess
import sys
import tempfile
import time
from typing import Dict, List, Optional, Tuple

from tools.images import large

ALLOWED = 5


def seconds(words: List[str], env: Optional[Dict[str, str]] = None) -> Tuple[float, float]:
    """The time of a command, on the clock and of the processor."""
    before, begin = resource.getrusage(resource.RUSAGE_CHILDREN), time.monotonic()
    subprocess.run(words, check=True, stdout=subprocess.DEVNULL, env=env)
    after = resource.getrusage(resource.RUSAGE_CHILDREN)
    return time.monotonic() - begin, after.ru_utime + after.ru_stime - before.ru_utime - before.ru_stime


def main(fcdisc: str, fcore: str, rounds: int = 3) -> bool:
    with tempfile.TemporaryDirectory() as folder:
        image = os.path.join(folder, "large.adf")
        large.main(image)
        extracts, copies = [], []
        for at in range(rounds):  # nothing is deleted in between: ext4 is slow to make files for a while after that
            tree = os.path.join(folder, "tree%d" % at)
            extracts.append(seconds([fcdisc, "extract", image, tree], env={**os.environ, "FCORE": os.path.abspath(fcore)}))
            copies.append(seconds(["cp", "-r", tree, tree + "-copy"]))
    ratios = []
    for at, what in enumerate(("on the clock", "of the processor")):
        ratios.append(min(one[at] for one in extracts) / min(one[at] for one in copies))
        for name, found in (("extract", extracts), ("cp -r", copies)):
            print("%-8s %s s %s" % (name, " ".join("%.2f" % one[at] for one in found), what))
        print("extract takes %.2f times the time of cp -r %s; %d times are allowed" % (ratios[-1], what, ALLOWED))
    return ratios[0] <= ALLOWED


if __name__ == "__main__":
    if len(sys.argv) not in (3, 4):
        sys.exit(__doc__)
    sys.exit(0 if main(*sys.argv[1:3], *map(int, sys.argv[3:])) else 1)
