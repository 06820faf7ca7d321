#!/usr/bin/env python3
# SPDX-License-Identifier: MIT
"""Measures commands on discs of many holes: whether one costs more where there are more holes, and how fast the holes are filled.

usage: tools/run bench/holes PROGRAM [HOLES]    15,000 holes, if nothing else is said

The discs have 518 MB and big directories. Files of 16 KB are created in one script, and every second one is deleted in another, so that
holes of 16 KB are left: a fifteenth of HOLES, and all of them, EACH of them for a directory. On each of the two discs `cdir` and `create`
are run LINES times in one script, beside an empty script: the instructions by valgrind, if it is there, or else the processor time. Then
files of 16 KB are created in one script for all of the holes but a fifteenth, and the time of a processor is taken. The status is 1 if a
command takes more than ALLOWED times as much on the disc with more holes, or if the files take more than SECONDS for each 14,000.
"""
from __future__ import annotations

import os
import re
import shutil
import subprocess
import sys
import tempfile
from typing import Dict, List

from tools.bench.changes import WORDS, Bench, empty_disc, script_of
from tools.files import MEMORY

LINES, EACH, ALLOWED, SECONDS = 100, 150, 1.5, 1.0


def paths(count: int, word: str, each: int) -> List[str]:
    """Paths of so many objects, so many in a directory."""
    return ["$.D%d.%s%05d" % (at // each, word, at) for at in range(count)]


def created(names: List[str]) -> List[str]:
    return ["create %s %s %d" % (path, WORDS, 16 << 10) for path in names]


def with_holes(bench: Bench, image: str, holes: int) -> None:
    """An empty disc becomes one with so many holes of 16 KB, each between two files."""
    files = paths(2 * holes, "File", 2 * EACH)
    bench.seconds(image, script_of(created(files)))
    bench.seconds(image, script_of(["delete " + path for path in files[::2]]))


def cost(bench: Bench, image: str, lines: List[str]) -> float:
    """The instructions of a script over a copy of the image, or its seconds if they can't be counted."""
    if not shutil.which("valgrind"):
        return bench.over_copy(bench.seconds, image, script_of(lines))
    subprocess.run(["cp", "--sparse=always", image, bench.work], check=True)
    words = ["valgrind", "--tool=callgrind", "--callgrind-out-file=/dev/null", bench.program, bench.work]
    ran = subprocess.run(words, input=script_of(lines), stdout=subprocess.DEVNULL, stderr=subprocess.PIPE, check=True)
    found = re.search(rb"Collected : (\d+)", ran.stderr)
    return float(found[1]) if found else 0.0


def a_command(bench: Bench, image: str, lines: List[str]) -> float:
    return (cost(bench, image, lines) - cost(bench, image, [])) / len(lines)


def main(program: str, holes: int = 15000) -> bool:
    commands: Dict[str, List[str]] = {
        "cdir": ["cdir " + path for path in paths(LINES, "New", LINES // 5)],
        "create": created(paths(LINES, "New", LINES // 5)),
    }
    with tempfile.TemporaryDirectory(dir=MEMORY) as folder:
        bench, right = Bench(program, folder), True
        few, many = (os.path.join(folder, name) for name in ("few", "many"))
        for image, count in ((few, holes // 15), (many, holes)):
            empty_disc(image)
            with_holes(bench, image, count)
        for word, lines in commands.items():
            one, other = (a_command(bench, image, lines) for image in (few, many))
            right = right and other <= ALLOWED * one
            print("%s: %.0f with %d holes, %.0f with %d: %.2f times; %.1f times are allowed" % (
                word, one, holes // 15, other, holes, other / one, ALLOWED), flush=True)
        files = holes - holes // 15
        script = script_of(created(paths(files, "New", EACH)))
        taken = min(bench.over_copy(bench.seconds, many, script) for _ in range(3))
    allowed = SECONDS * files / 14000
    print("%d files of 16 KB into %d holes: %.2f s; %.2f s are allowed" % (files, holes, taken, allowed))
    return right and taken <= allowed


if __name__ == "__main__":
    if len(sys.argv) not in (2, 3):
        sys.exit(__doc__)
    sys.exit(0 if main(sys.argv[1], *map(int, sys.argv[2:])) else 1)
