#!/usr/bin/env python3
# SPDX-License-Identifier: MIT
"""Times 10,000 commands of each kind in one directory of a disc of 518 MB, and beside them debugfs, which makes the same files on ext4.

usage: tools/run bench/directory PROGRAM [FILES [ROUNDS]]    10,000 files and five rounds, if nothing else is said

The directory is big. One script saves the files, 100 bytes each; further ones save over them, set their words, rename and delete them. The
rounds take turns, and the least of each counts, of the processor, opening included. The images lie in memory, if there is such a folder.
Ten thousand commands may take 3 s. debugfs makes a directory with as many files and takes them out again, without checks of what it does.
"""
from __future__ import annotations

import os
import random
import shutil
import subprocess
import sys
import tempfile
from typing import Dict, List

from tools.bench.changes import Bench, empty_disc, script_of
from tools.bench.extract import seconds
from tools.files import MEMORY

ALLOWED = 3.0
WORDS = "FFFFFD00 00000000"


def scripts(files: int, seed: int = 1) -> Dict[str, List[str]]:
    """The lines of each script, in the order in which they run; all but the first go over the files by chance."""
    names = ["$.Big.File%05d" % at for at in range(files)]
    chance = random.Random(seed)
    mixed = chance.sample(names, files)
    return {
        "save": ["save %s %s %s" % (name, WORDS, "5a" * 100) for name in names],
        "save over a file": ["save %s %s %s" % (name, WORDS, "6b" * 100) for name in mixed],
        "set": ["set %s FFFFFF00 00000001 RW" % name for name in mixed],
        "rename": ["rename %s %sx" % (name, name) for name in mixed],
        "delete": ["delete %sx" % name for name in mixed],
    }


def by_debugfs(folder: str, files: int) -> Dict[str, float]:
    """How long debugfs takes to write as many files into one directory, and to take them out."""
    image, content, script = (os.path.join(folder, name) for name in ("ext4", "content", "debugfs"))
    with open(content, "wb") as file:
        file.write(b"Z" * 100)
    if os.path.exists(image):
        os.unlink(image)
    subprocess.run(["mke2fs", "-q", "-t", "ext4", image, "512M"], check=True)
    found = {}
    for word, line in (("write", "write %s File%%05d" % content), ("rm", "rm File%05d")):
        with open(script, "w") as file:
            file.write("".join(["mkdir Big\n"] * (word == "write") + ["cd Big\n"] + [line % at + "\n" for at in range(files)]))
        found[word] = seconds(["sh", "-c", "debugfs -w -f %s %s 2> %s.errors" % (script, image, script)])[1]
    return found


def main(program: str, files: int = 10000, rounds: int = 5) -> bool:
    found: Dict[str, List[float]] = {}
    with tempfile.TemporaryDirectory(dir=MEMORY) as folder:
        image, work, bench = os.path.join(folder, "image"), os.path.join(folder, "work"), Bench(program, folder)
        empty_disc(image)
        bench.seconds(image, b"cdir $.Big\n")
        for _ in range(rounds):
            subprocess.run(["cp", "--sparse=always", image, work], check=True)
            for word, lines in scripts(files).items():
                found.setdefault(word, []).append(bench.seconds(work, script_of(lines)))
            for word, taken in (by_debugfs(folder, files) if shutil.which("debugfs") else {}).items():
                found.setdefault("debugfs " + word, []).append(taken)
    for word, all_seconds in found.items():
        print("%-16s %.2f s for %d, the least of %d" % (word, min(all_seconds), files, rounds))
    return all(min(taken) <= ALLOWED for word, taken in found.items() if not word.startswith("debugfs"))


if __name__ == "__main__":
    if len(sys.argv) not in (2, 3, 4):
        sys.exit(__doc__)
    sys.exit(0 if main(sys.argv[1], *map(int, sys.argv[2:])) else 1)
