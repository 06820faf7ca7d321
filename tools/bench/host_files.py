#!/usr/bin/env python3
# SPDX-License-Identifier: MIT
"""Times `put` of a file of 1.5 GB onto a hard disc of 4 GB and `get` of it back beside `cp` of it there and back.

usage: tools/run bench/host_files PROGRAM [BYTES [ROUNDS]]    in a folder for temporary files (TMPDIR) with 6.2 GB free; three rounds by default

The disc is sparse, and the file is in memory when it is read. In each round the contestants run in turn, and the least time on the clock
of each counts. The file that comes back has to have the same SHA-256. Status 1 says that it hasn't, or that fcore took more than 32 MB of
memory or more than twice the time of cp.
"""
from __future__ import annotations

import hashlib
import os
import random
import sys
import tempfile
import time
from typing import Dict, List, Optional

from tools.bench.readings import run
from tools.images.fragmented import hard_disc
from tools.images.large import SparseFile

BYTES, PIECE, WORDS = 1_500_000_000, 1 << 20, "00000000 00000000"
MEMORY, TIMES = 32 << 10, 2  # KB, and how many times as long


def make_file(path: str, size: int) -> str:
    """A file of bytes drawn by chance, and their SHA-256."""
    drawn, sums = random.Random(1), hashlib.sha256()
    with open(path, "wb") as file:
        for at in range(0, size, PIECE):
            piece = drawn.randbytes(min(PIECE, size - at))
            sums.update(piece)
            file.write(piece)
    return sums.hexdigest()


def digest(path: str) -> str:
    sums = hashlib.sha256()
    with open(path, "rb") as file:
        for piece in iter(lambda: file.read(PIECE), b""):
            sums.update(piece)
    return sums.hexdigest()


def make_disc(path: str) -> None:
    """An empty disc of 4 GB."""
    volume = hard_disc(10, 15, 13, 62, big=True)
    with open(path, "wb") as file:
        volume.write(SparseFile(file, volume.shape.record.size))


def clocked(words: List[str], script: Optional[str], least: Dict[str, float], name: str) -> int:
    """Runs a command, notes its time on the clock if it is the least, and answers its memory in KB."""
    start = time.monotonic()
    used = run(words, script)
    least[name] = min(least.get(name, 1e9), time.monotonic() - start)
    return used.ru_maxrss


def main(program: str, size: int = BYTES, rounds: int = 3) -> int:
    program, least, memory = os.path.realpath(program), {}, 0
    with tempfile.TemporaryDirectory() as folder:
        os.chdir(folder)
        wanted = make_file("given", size)
        for name, line in (("put", "put given $.File %s\n" % WORDS), ("get", "get $.File back\n")):
            with open(name, "w") as file:
                file.write(line)
        for _ in range(rounds):
            for name in ("disc", "back", "copy", "again"):
                if os.path.exists(name):
                    os.unlink(name)
            make_disc("disc")
            memory = max(memory, clocked([program, "disc"], "put", least, "put"), clocked([program, "disc"], "get", least, "get"))
            same = digest("back") == wanted
            os.unlink("back")
            clocked(["cp", "given", "copy"], None, least, "there")
            clocked(["cp", "copy", "again"], None, least, "back")
            if not same:
                print("the file that came back is another one")
                return 1
    own, other = least["put"] + least["get"], least["there"] + least["back"]
    print("put and get of %d bytes: %.2f s and %.2f s; cp there and back %.2f s: %.2f times as long; %d KB of memory at most"
          % (size, least["put"], least["get"], other, own / other, memory))
    return 0 if memory <= MEMORY and own <= TIMES * other else 1


if __name__ == "__main__":
    if len(sys.argv) not in (2, 3, 4):
        sys.exit(__doc__)
    sys.exit(main(sys.argv[1], *map(int, sys.argv[2:])))
