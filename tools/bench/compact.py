#!/usr/bin/env python3
# SPDX-License-Identifier: MIT
"""Times `compact` over fragmented discs, beside a copy of as many bytes with as many writes and syncs, and counts its syncs.

usage: tools/run bench/compact PROGRAM

The discs are three of 518 MB that are half empty, of some 2,000, 7,000 and 20,000 runs (fragmented.py), and four of 26 to 121 MB whose
files lie in short runs over zones of chance, of 3,329 to 25,900 runs (scattered.py): of these `compact` has to make at most four syncs a
run. The program runs over each under the recorder, which gives the bytes that it moved, its writes and its syncs, and then without it,
in turn with the copy and with `cp` of the disc with one sync: the least times of ROUNDS rounds, on the clock and of the processor.
"""
from __future__ import annotations

import os
import resource
import shutil
import subprocess
import sys
import tempfile
import time
from typing import Callable, Dict, Iterator, List, Optional, Tuple

from tools.checks.crash import SYNC
from tools.files import built_shim
from tools.images.fragmented import Fragmenter, hard_disc
from tools.images.large import SparseFile
from tools.images.scattered import scattered
from tools.images.volumes import NewVolume

MIB = 1 << 20
SYNCS_A_RUN, ROUNDS = 4, 5


def cut_up(most_bits: int, directories: int) -> NewVolume:
    """A volume whose parts are at most so long."""
    volume = hard_disc(10, 15, 10, 62)
    Fragmenter(volume, 1, most_bits).fill(directories)
    return volume


def volumes() -> Iterator[Tuple[NewVolume, Optional[int]]]:
    """The discs with the syncs a run that they may take, if there is a limit."""
    for most_bits, directories in ((32, 40), (8, 120), (2, 400)):
        yield cut_up(most_bits, directories), None
    for files in (1248, 2500, 5000, 10000):
        yield scattered(files), SYNCS_A_RUN


def written(path: str, volume: NewVolume) -> int:
    """Writes a volume; its number of runs."""
    with open(path, "wb") as file:
        volume.write(SparseFile(file, volume.shape.record.size))
    return sum(map(len, volume.runs))


def copied(image: str, work: str) -> None:
    """Copies an image, onto the disk: what is timed later has its own writes to sync, and not the copy."""
    shutil.copyfile(image, work)
    with open(work, "r+b") as file:
        os.fsync(file.fileno())


def totals(path: str) -> Tuple[int, int, int]:
    """The bytes that were written, the writes, and the syncs, of a record."""
    moved = writes = syncs = 0
    with open(path, "rb") as file:
        while words := file.read(16):
            count = int.from_bytes(words[8:], "little")
            if count == SYNC:
                syncs += 1
            else:
                moved, writes = moved + count, writes + 1
                file.seek(count, os.SEEK_CUR)
    return moved, writes, syncs


def run(words: List[str], env: Optional[Dict[str, str]] = None) -> None:
    subprocess.run(words, input=b"compact\n", stdout=subprocess.DEVNULL, check=True, env=env)


def copy(path: str, moved: int, writes: int, syncs: int) -> None:
    """Copies so many bytes within a file, in as many pieces as there are writes, with syncs between them."""
    piece, each = max(1, moved // max(1, writes)), max(1, writes // max(1, syncs))
    with open(path, "r+b", buffering=0) as file:
        half = os.fstat(file.fileno()).st_size // 2
        for number in range(writes):
            at = number * piece
            os.pwrite(file.fileno(), os.pread(file.fileno(), piece, at % half), half + at % (half - piece))
            if number % each == 0:
                os.fsync(file.fileno())


def copy_disc(path: str, other: str) -> None:
    """Copies a whole disc, no zeros left out, with one sync."""
    subprocess.run(["cp", "--sparse=never", path, other], check=True)
    subprocess.run(["sync", other], check=True)
    os.unlink(other)


def times(work: Callable[[], None]) -> Tuple[float, float]:
    """Seconds on the clock, and of the processor, children included."""
    def used() -> float:
        return sum(sum(resource.getrusage(who)[:2]) for who in (resource.RUSAGE_SELF, resource.RUSAGE_CHILDREN))
    start, before = time.monotonic(), used()
    work()
    return time.monotonic() - start, used() - before


def main(program: str) -> bool:
    program = os.path.realpath(program)
    with tempfile.TemporaryDirectory(dir=os.getcwd()) as folder:
        image, work, record, other = (os.path.join(folder, name) for name in ("image", "work", "record", "other"))
        shim = built_shim(folder)
        within = True
        for volume, limit in volumes():
            runs = written(image, volume)
            shutil.copyfile(image, work)
            run([program, work], env={"LD_PRELOAD": shim, "OUTSIDE_RECORD": record})
            moved, writes, syncs = totals(record)
            os.unlink(record)
            rounds = []
            for _ in range(ROUNDS):
                copied(image, work)
                rounds.append([times(lambda: run([program, work])), times(lambda: copy(work, moved, writes, syncs)),
                               times(lambda: copy_disc(image, other))])
            compact, copying, whole = ([min(one[at][kind] for one in rounds) for kind in (0, 1)] for at in range(3))
            print("%d runs: %.1f MB, %d writes and %d syncs, %.2f a run; in %.2f s, %.3f of the processor; copying as much: %.2f, %.3f; "
                  "cp of the disc: %.2f" % (runs, moved / MIB, writes, syncs, syncs / runs, *compact, *copying, whole[0]), flush=True)
            within = within and (limit is None or syncs <= limit * runs)
    return within


if __name__ == "__main__":
    if len(sys.argv) != 2:
        sys.exit(__doc__)
    sys.exit(0 if main(sys.argv[1]) else 1)
