#!/usr/bin/env python3
# SPDX-License-Identifier: MIT
"""Compares commands that change a disc of 518 MB with the same ones under --safe: time, instructions, calls of the system and syncs.

usage: tools/run bench/safe PROGRAM [FILES]    a tenth of 10,000 files, and all of them, if nothing else is said

The disc has big directories, of 100 files each (as in bench/changes). Each command is run LINES times in one script, beside an empty
script: the processor time is the least of ROUNDS rounds, instructions are counted by valgrind, if it is there, and calls by the recorder of
tools/checks/outside.c. Then 10,000 files of 100 bytes are saved in one script, on an empty disc. The image lies in memory, if there is such
a folder: a sync on a disk takes longer than all else. The status is 1 if the saves under --safe take more than 1.5 times as long.
"""
from __future__ import annotations

import os
import re
import shutil
import subprocess
import sys
import tempfile
from typing import Dict, List, NamedTuple, Sequence

from tools.bench.changes import DIRECTORIES, Bench, empty_disc, filled, saving, script_of
from tools.bench.extract import seconds
from tools.files import MEMORY, built_shim, read

LINES, ROUNDS, ALLOWED = 200, 3, 1.5
MODES: Dict[str, List[str]] = {"plain": [], "--safe": ["--safe"]}


class Cost(NamedTuple):
    """What a run costs: seconds of a processor, instructions (0 if they can't be counted), calls of the system, and syncs."""

    seconds: float
    instructions: int
    calls: int
    syncs: int


class Costs:
    """The program over copies of an image."""

    def __init__(self, program: str, folder: str) -> None:
        self.program, self.folder, self.shim = os.path.realpath(program), folder, built_shim(folder)
        self.work, self.script, self.log = (os.path.join(folder, name) for name in ("work", "script", "log"))

    def command(self, options: Sequence[str]) -> List[str]:
        return ["sh", "-c", 'exec "$0" "$@" < %s' % self.script, self.program, *options, self.work]

    def fresh(self, image: str) -> None:
        subprocess.run(["cp", "--sparse=always", image, self.work], check=True)

    def of(self, image: str, lines: List[str], options: Sequence[str]) -> Cost:
        with open(self.script, "wb") as file:
            file.write(script_of(lines))
        taken = []
        for _ in range(ROUNDS):
            self.fresh(image)
            taken.append(seconds(self.command(options))[1])
        return Cost(min(taken), self.instructions(image, options), *self.calls(image, options))

    def instructions(self, image: str, options: Sequence[str]) -> int:
        if not shutil.which("valgrind"):
            return 0
        self.fresh(image)
        words = ["valgrind", "--tool=callgrind", "--callgrind-out-file=/dev/null", self.program, *options, self.work]
        with open(self.script, "rb") as source:
            ran = subprocess.run(words, stdin=source, stdout=subprocess.DEVNULL, stderr=subprocess.PIPE, text=True, check=False)
        found = re.search(r"Collected : (\d+)", ran.stderr)
        return int(found[1]) if found else 0

    def calls(self, image: str, options: Sequence[str]) -> List[int]:
        self.fresh(image)
        if os.path.exists(self.log):
            os.unlink(self.log)
        environment = {**os.environ, "LD_PRELOAD": self.shim, "OUTSIDE_LOG": self.log}
        with open(self.script, "rb") as source:
            subprocess.run([self.program, *options, self.work], stdin=source, stdout=subprocess.DEVNULL, env=environment, check=True)
        kinds = [line.split(b" ", 1)[0] for line in read(self.log).splitlines()[:-1]]
        return [len(kinds), kinds.count(b"fsync")]

    def a_command(self, image: str, lines: List[str], options: Sequence[str]) -> Cost:
        base, all_lines = self.of(image, [], options), self.of(image, lines, options)
        return Cost(*((one - other) / len(lines) for one, other in zip(all_lines, base)))


def shown(cost: Cost) -> str:
    counted = "%.0f thousand instructions, " % (cost.instructions / 1000) if cost.instructions else ""
    return "%.0f microseconds, %s%.1f calls, %.1f syncs" % (cost.seconds * 1e6, counted, cost.calls, cost.syncs)


def tables(costs: Costs, image: str, files: int) -> None:
    """Each command in ten of the directories, at a tenth of the files and at all of them."""
    for count, of_words in filled(Bench(costs.program, costs.folder), image, files, LINES):
        for word, lines in of_words.items():
            if word != "load":
                for mode, options in MODES.items():
                    print("%d files, %s, %s: %s" % (count, word, mode, shown(costs.a_command(image, lines, options))), flush=True)


def main(program: str, files: int = 10000) -> bool:
    with tempfile.TemporaryDirectory(dir=MEMORY) as folder:
        image, costs = os.path.join(folder, "image"), Costs(program, folder)
        tables(costs, image, files)
        empty_disc(image)
        lines = saving(range(files), lambda at: at % DIRECTORIES)
        taken = {mode: costs.of(image, lines, options) for mode, options in MODES.items()}
    for mode, cost in taken.items():
        print("%d files saved in one script, %s: %.2f s, %d calls, %d syncs" % (files, mode, cost.seconds, cost.calls, cost.syncs))
    ratio = taken["--safe"].seconds / taken["plain"].seconds
    print("--safe takes %.2f times the time; %.1f times are allowed" % (ratio, ALLOWED))
    return ratio <= ALLOWED


if __name__ == "__main__":
    if len(sys.argv) not in (2, 3):
        sys.exit(__doc__)
    sys.exit(0 if main(sys.argv[1], *map(int, sys.argv[2:])) else 1)
