#!/usr/bin/env python3
# SPDX-License-Identifier: MIT
"""Times the commands that change a volume, over discs of 512 MB and more.

usage: tools/run bench/changes PROGRAM [FILES [OBJECTS]]    10,000 files, and 50,000 objects on the other discs

Files of 100 bytes are saved in one script into 100 directories of a disc with big directories, into one after another, and then, on
another disc, into all in turn. At a tenth of the files and at all of them, and then over discs of 1,000 directories and 50,000 files
(tools/images/large.py), with small directories and with big ones, each command is run LINES times in one script: the processor time
beside that of an empty script, each the least of ROUNDS rounds, and the calls of the system beside its calls, by strace or, without
it, by the recorder of tools/checks/outside.c, both a command. Between them files are made in one directory, which grows, and files are moved into one.
"""
from __future__ import annotations

import os
import resource
import shutil
import subprocess
import sys
import tempfile
from typing import Callable, Dict, Iterable, Iterator, List, Tuple

from tools.files import built_shim
from tools.images.fragmented import hard_disc
from tools.images.large import SparseFile, with_directories
from tools.images.volumes import NewVolume

DIRECTORIES, LINES, ROUNDS = 100, 500, 5
WORDS = "00000000 00000000"


class Bench:
    """The program, and how its calls of the system are counted."""

    def __init__(self, program: str, folder: str) -> None:
        self.program, self.folder = os.path.realpath(program), folder
        self.work = os.path.join(folder, "work")
        self.shim = None if shutil.which("strace") else built_shim(folder)

    def seconds(self, image: str, script: bytes) -> float:
        """How many seconds of a processor a script takes over the image, which it changes."""
        before = resource.getrusage(resource.RUSAGE_CHILDREN)
        ran = subprocess.run([self.program, image], input=script, stdout=subprocess.PIPE, check=False)
        after = resource.getrusage(resource.RUSAGE_CHILDREN)
        if ran.returncode:
            sys.exit("status %d: %s" % (ran.returncode, ran.stdout[-200:].decode()))
        return after.ru_utime + after.ru_stime - before.ru_utime - before.ru_stime

    def calls(self, image: str, script: bytes) -> int:
        """How many calls of the system it makes."""
        counts = os.path.join(self.folder, "calls")
        traced = self.shim is None
        words = ["strace", "-f", "-c", "-o", counts, self.program, image] if traced else [self.program, image]
        env = {"LD_PRELOAD": self.shim, "OUTSIDE_LOG": counts} if self.shim else None
        subprocess.run(words, input=script, stdout=subprocess.DEVNULL, check=True, env=env)
        with open(counts) as file:
            lines = file.read().split("\n")
        os.unlink(counts)
        return int(next(line for line in lines if line.endswith("total")).split()[3]) if traced else len(lines) - 1

    def a_command(self, image: str, lines: List[str]) -> Tuple[float, float]:
        """Microseconds, the least of ROUNDS rounds, and calls of one of the lines. The image stays."""
        script, found = script_of(lines), []
        for measure, rounds in ((self.seconds, ROUNDS), (self.calls, 1)):
            taken = []
            for one in (b"", script):
                taken.append(min(self.over_copy(measure, image, one) for _ in range(rounds)))
            found.append((taken[1] - taken[0]) / len(lines))
        return found[0] * 1e6, found[1]

    def over_copy(self, measure: Callable[[str, bytes], float], image: str, script: bytes) -> float:
        """What is measured of a script over a copy of the image."""
        subprocess.run(["cp", "--sparse=always", image, self.work], check=True)
        return measure(self.work, script)

    def table(self, image: str, title: str, lines: Dict[str, List[str]]) -> None:
        """A row for each command."""
        for word, found in lines.items():
            print("%s, %s: %.0f microseconds, %.1f calls a command" % (title, word, *self.a_command(image, found)), flush=True)


def saving(numbers: Iterable[int], directory_of: Callable[[int], int]) -> List[str]:
    """Lines that save files of 100 bytes with these numbers."""
    return ["save $.D%d.File%05d %s %s" % (directory_of(at), at, WORDS, ("%08x" % at) * 25) for at in numbers]


def commands(paths: List[str], fresh: List[str], others: List[str]) -> Dict[str, List[str]]:
    """LINES lines of each command: over files that are there, over paths that aren't, and to other directories."""
    return {
        "save": ["save %s %s %s" % (path, WORDS, "5a" * 100) for path in fresh],
        "create": ["create %s %s 100" % (path, WORDS) for path in fresh],
        "save over a file": ["save %s %s %s" % (path, WORDS, "5a" * 100) for path in paths], "cdir": ["cdir " + path for path in fresh],
        "delete": ["delete " + path for path in paths], "set": ["set %s FFFFFD00 00000000 R" % path for path in paths],
        "rename": ["rename %s %sx" % (path, path) for path in paths],
        "rename to another directory": ["rename %s %s" % pair for pair in zip(paths, others)],
        "load": ["load " + path for path in paths],
    }


def write(volume: NewVolume, path: str) -> None:
    with open(path, "wb") as file:
        volume.write(SparseFile(file, volume.shape.record.size))


def empty_disc(path: str) -> None:
    """A disc of 518 MB with big directories."""
    volume = hard_disc(10, 15, 10, 62, big=True)
    volume.root.size = 4096
    for at in range(DIRECTORIES):
        made = volume.root.insert(volume.directory(volume.root, b"D%d" % at, pieces=[(at % volume.shape.zones, 16)]))
        made.holder = volume.root
    write(volume, path)


def many_files(bench: Bench, image: str, files: int) -> None:
    """Files of 100 bytes saved in turn into 100 directories, which so get ten times as long."""
    empty_disc(image)
    done = 0
    for count in (files // 10, files):
        lines = saving(range(done, count), lambda at: at % DIRECTORIES)
        print("%d files saved in one script: %.2f s" % (count - done, bench.seconds(image, script_of(lines))), flush=True)
        done = count
        step = max(1, count // LINES)
        paths = ["$.D%d.File%05d" % (at % DIRECTORIES, at) for at in range(0, count, step)][:LINES]
        fresh = ["$.D%d.New%05d" % (at % DIRECTORIES, at) for at in range(LINES)]
        others = ["$.D%d.File%05d" % ((at + 1) % DIRECTORIES, at) for at in range(0, count, step)][:LINES]
        bench.table(image, "%d files" % count, commands(paths, fresh, others))


def filled(bench: Bench, image: str, files: int, lines: int) -> Iterator[Tuple[int, Dict[str, List[str]]]]:
    """Files of 100 bytes saved into one of 100 directories after another, every tenth first: at a tenth of the files and at all of them
    their number, and the commands in those ten, so many lines of each. Only the disc has more files then, and no directory in which a
    command works."""
    empty_disc(image)
    each, done = files // DIRECTORIES, 0
    chosen = list(range(0, DIRECTORIES, DIRECTORIES // 10))
    order = chosen + [one for one in range(DIRECTORIES) if one not in chosen]
    numbers = [(at, chosen[at] * each + number) for number in range(min(each, lines // 10)) for at in range(10)]
    paths = ["$.D%d.File%05d" % (chosen[at], number) for at, number in numbers]
    fresh = ["$.D%d.New%05d" % (chosen[at], number) for at, number in numbers]
    others = ["$.D%d.File%05d" % (chosen[at - 1], number) for at, number in numbers]
    for count in (files // 10, files):
        bench.seconds(image, script_of(saving([order[at // each] * each + at % each for at in range(done, count)], lambda at: at // each)))
        yield count, commands(paths, fresh, others)
        done = count


def full_directories(bench: Bench, image: str, files: int) -> None:
    """The commands in directories that are as long on a disc of few files as on one of many."""
    for count, of_words in filled(bench, image, files, LINES):
        bench.table(image, "%d files, %d a directory" % (count, files // DIRECTORIES), of_words)


def one_directory(bench: Bench, image: str, files: int) -> None:
    """Files of 0 bytes in one directory, which grows at every fiftieth; and files that share identifiers, and so are copied, moved into
    one."""
    empty_disc(image)
    for first, last in ((0, files // 20), (files // 20, files // 5)):
        lines = ["create $.D0.File%05d %s 0" % (at, WORDS) for at in range(first, last)]
        taken = bench.seconds(image, script_of(lines))
        print("%d files of 0 bytes made in one directory that has %d: %.0f microseconds a command" % (
            last - first, first, taken / len(lines) * 1e6), flush=True)
    numbers = range(files // 20)
    bench.seconds(image, script_of("save $.D1.File%05d %s %s" % (at, WORDS, "5a" * 100) for at in numbers))
    taken = bench.seconds(image, script_of("rename $.D1.File%05d $.D2.File%05d" % (at, at) for at in numbers))
    print("%d files that share identifiers moved into one empty directory: %.0f microseconds a command" % (
        len(numbers), taken / len(numbers) * 1e6), flush=True)


def many_objects(bench: Bench, image: str, objects: int, big: bool) -> None:
    """The commands over a disc that is full of objects."""
    directories = objects // 50
    write(with_directories(directories, big=big), image)
    places = range(0, directories, max(1, directories // DIRECTORIES))
    chosen = [("$." + path, number) for path, number in directory_paths(directories, places)]
    paths = ["%s.F%02d" % (path, at) for at in range(5) for path, number in chosen][:LINES]
    fresh = ["%s.New%05d" % (path, at) for at in range(5) for path, number in chosen][:LINES]
    others = ["%s.Moved%d" % (chosen[(at + 1) % len(chosen)][0], at // len(chosen)) for at in range(len(paths))]
    bench.table(image, "%d objects%s" % (51 * directories, ", big directories" * big), commands(paths, fresh, others))


def script_of(lines: Iterable[str]) -> bytes:
    return "".join(line + "\n" for line in lines).encode()


def main(program: str, files: int = 10000, objects: int = 50000) -> None:
    with tempfile.TemporaryDirectory(dir=os.getcwd()) as folder:
        image, bench = os.path.join(folder, "image"), Bench(program, folder)
        full_directories(bench, image, files)
        many_files(bench, image, files)
        one_directory(bench, image, files)
        for big in (False, True):
            many_objects(bench, image, objects, big)


def directory_paths(count: int, places: Iterable[int]) -> List[Tuple[str, int]]:
    """The paths of some directories of tools/images/large.py."""
    volume = with_directories(count)
    found = {one.name: volume.path_of(one)[2:] for one in volume.directories()[1:]}
    return [(found[b"D%d" % at], at) for at in places]


if __name__ == "__main__":
    if len(sys.argv) not in (2, 3, 4):
        sys.exit(__doc__)
    main(sys.argv[1], *map(int, sys.argv[2:]))
