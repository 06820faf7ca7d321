#!/usr/bin/env python3
# SPDX-License-Identifier: MIT
"""Compares the processor time of fcore with that of other programs that do as much, and measures its memory and system calls.

usage: tools/run bench/readings FCORE [ROUNDS]    in a folder for temporary files (TMPDIR) with 8 GB free; five rounds by default
It is not part of the gate: what it measures depends on the machine. In each round the contestants of a task run in turn; the
least time of each counts. The images are generated, and are in memory when they are read. What isn't installed (mke2fs and
e2fsck, xxd, strace, /usr/bin/time) is left out.
"""
from __future__ import annotations

import functools
import os
import random
import resource
import shutil
import subprocess
import sys
import tempfile
from typing import IO, Callable, Dict, Iterator, List, Optional, Tuple, Union

from tools.images import large
from tools.images.volumes import Directory, NewVolume, record_bytes

Runner = Callable[[List[str], Optional[str]], resource.struct_rusage]
Places = Callable[[str], str]  # the path of a name
MEGA = 1 << 20
COUNTS, FILES, RUNS = (2500, 5000, 10000), 50, 25  # files on the discs in many runs, in a directory, and runs of a file
RUN = 4096  # the bytes of the smallest run of those discs
LOADED = 256 * MEGA


def run(words: List[str], script: Optional[str] = None, out: Union[int, IO[bytes]] = subprocess.DEVNULL) -> resource.struct_rusage:
    """Runs a command, whose standard input is a file. Answers its resources."""
    with open(script or os.devnull, "rb") as given:
        process = subprocess.Popen(words, stdin=given, stdout=out, stderr=subprocess.DEVNULL)
        _, status, used = os.wait4(process.pid, 0)
    process.returncode = os.waitstatus_to_exitcode(status)
    assert process.returncode == 0, (words, process.returncode)
    return used


def into_pipe(words: List[str], script: Optional[str] = None) -> resource.struct_rusage:
    """The same with a pipe as output, which cat empties."""
    with subprocess.Popen(["cat"], stdin=subprocess.PIPE, stdout=subprocess.DEVNULL) as reader:
        used = run(words, script, reader.stdin)
        reader.stdin.close()
    return used


def seconds(used: resource.struct_rusage) -> float:
    return used.ru_utime + used.ru_stime


class Task:
    """What fcore does with a script over an image, and commands that do as much."""

    def __init__(self, name: str, image: str, script: str, others: Dict[str, List[str]], runner: Runner = run) -> None:
        self.name, self.image, self.script, self.others, self.runner = name, image, script, others, runner


def empty_volume(zones: int, log2_bit: int, map_bits: int) -> NewVolume:
    size = (zones * 8160 - 480) << log2_bit
    volume = NewVolume(record_bytes(10, 15, log2_bit, zones, 32, 0x300, size), True)
    volume.take(2, zones // 2, map_bits)
    volume.take(2, 0, 32)
    volume.take(volume.new_identifier(), 0, 16)
    return volume


def in_many_runs(count: int) -> NewVolume:
    """So many files in 25 runs each, which lie in zones far apart, in directories $.D0.E0 and so on."""
    zones = 700
    volume = empty_volume(zones, 8, 2 * zones * 4)
    order = random.Random(1)
    others = [zone for zone in range(zones) if zone != zones // 2]  # than the map's
    for at in range(count // FILES):
        if at % FILES == 0:
            holder = volume.directory(volume.root, b"D%d" % (at // FILES), pieces=[(others[-1], 16)])
            volume.root.entries.append(holder)
        made = volume.directory(holder, b"E%d" % (at % FILES), pieces=[(others[at], 16)])
        holder.entries.append(made)
        for n in range(FILES):
            pieces = [(zone, 16) for zone in order.sample(others, RUNS)]
            made.entries.append(volume.file(b"F%d" % n, order.randbytes(RUNS * RUN - 100), pieces))
    for directory in volume.directories():
        directory.entries.sort(key=lambda entry: entry.name)
    return volume


def with_large_file() -> NewVolume:
    """One file of 256 MB, in runs as long as a zone has room for."""
    zones = 70
    volume = empty_volume(zones, 10, 2 * zones)
    pieces, left = [], LOADED // 1024
    for zone in range(1, zones):
        if left and zone != zones // 2:
            pieces.append((zone, min(left, 8000)))
            left -= pieces[-1][1]
    volume.root.entries.append(volume.file(b"Large", random.Random(2).randbytes(MEGA) * (LOADED // MEGA), pieces))
    return volume


class Hollow:
    """So many bytes 0, of which none is written."""

    def __init__(self, size: int) -> None:
        self.size = size

    def __len__(self) -> int:
        return self.size

    def __bytes__(self) -> bytes:
        return b""


def of_a_terabyte() -> NewVolume:
    """240 files of 4 GB, which lie one after the other in all zones but the first and the map's."""
    zones, bits = 1028, 32767
    volume = empty_volume(zones, 17, -(-2 * zones // 128))
    free = [[zone, 8000] for zone in range(1, zones) if zone != zones // 2]
    for directory in range(4):
        made = volume.directory(volume.root, b"D%d" % directory, pieces=[(0, 16)])
        volume.root.entries.append(made)
        for n in range(10, 70):
            pieces, left = [], bits
            while left:
                count = min(left, free[0][1])
                if left - count in range(1, 16):
                    count -= 16
                pieces.append((free[0][0], count))
                left -= count
                free[0][1] -= count
                if free[0][1] < 16:
                    del free[0]
            made.entries.append(volume.file(b"F%d" % n, Hollow(bits << 17), pieces))
    return volume


def write_image(path: str, volume: NewVolume) -> None:
    with open(path, "wb") as file:
        volume.write(large.SparseFile(file, volume.shape.record.size))


def write_script(path: str, lines: List[str]) -> str:
    with open(path, "w") as file:
        file.write("".join(line + "\n" for line in lines))
    return path


def write_files(folder: str, volume: NewVolume) -> Tuple[List[str], List[str]]:
    """The volume's files outside of it. Answers their paths there and in it."""
    outside, inside = [], []

    def below(directory: Directory, path: str, name: str) -> None:
        os.makedirs(path)
        for entry in directory.entries:
            there, here = os.path.join(path, entry.name.decode()), name + "." + entry.name.decode()
            if entry.is_directory:
                below(entry, there, here)
            else:
                with open(there, "wb") as file:
                    file.write(entry.data)
                outside.append(there)
                inside.append(here)

    below(volume.root, folder, "$")
    return outside, inside


def tasks(folder: str) -> List[Task]:
    path = functools.partial(os.path.join, folder)
    return [*digest_tasks(path), *large_file_tasks(path), *check_tasks(path)]


def digest_tasks(path: Places) -> Iterator[Task]:
    for count in COUNTS:
        volume = in_many_runs(count)
        image = path("runs%d.adf" % count)
        write_image(image, volume)
        outside, inside = write_files(path("files%d" % count), volume)
        script = write_script(path("digests%d" % count), ["digest " + name for name in inside])
        list_of = write_script(path("list%d" % count), outside)
        yield Task("%d digests on a disc in %d runs" % (count, count * RUNS), image, script,
                   {"sha256sum": ["xargs", "-a", list_of, "sha256sum"]})


def large_file_tasks(path: Places) -> Iterator[Task]:
    volume = with_large_file()
    write_image(path("large.adf"), volume)
    large = write_files(path("large"), volume)[0][0]
    with open(path("twice"), "wb") as file:
        file.truncate(2 * LOADED)
    load = write_script(path("load"), ["load $.Large"])
    digest = write_script(path("digest"), ["digest $.Large"])
    cat, xxd = {"cat of as many bytes": ["cat", path("twice")]}, {"xxd -p": ["xxd", "-p", large]}
    yield Task("`load` of 256 MB, into a pipe", path("large.adf"), load, {**cat, **(xxd if shutil.which("xxd") else {})}, into_pipe)
    yield Task("`digest` of 256 MB", path("large.adf"), digest, {"sha256sum": ["sha256sum", large]})


def check_tasks(path: Places) -> Iterator[Task]:
    check = write_script(path("check"), ["check"])
    write_image(path("terabyte.adf"), of_a_terabyte())
    yield Task("`check` of a sparse disc of 1.1 TB with 240 files of 4 GB", path("terabyte.adf"), check, {})
    volume = large.with_directories(1000)
    write_image(path("objects.adf"), volume)
    tree = write_files(path("tree"), volume)[0]
    others = {"cat of the image": ["cat", path("objects.adf")]}
    if shutil.which("mke2fs") and shutil.which("e2fsck"):
        subprocess.run(["mke2fs", "-q", "-t", "ext4", "-N", "60000", "-d", path("tree"), path("objects.ext4"), "600M"], check=True)
        others["e2fsck"] = ["e2fsck", "-f", "-n", path("objects.ext4")]
    yield Task("`check` of %d files in 1,000 directories" % len(tree), path("objects.adf"), check, others)
    frees = write_script(path("frees"), ["check"] + ["free"] * 1000)
    yield Task("the same, and `free` 1,000 times", path("objects.adf"), frees, {})


def memory(fcore: str, folder: str, volume: NewVolume) -> int:
    """The most bytes that opening this volume takes. A process has at least its parent's, so a small program starts it."""
    image = os.path.join(folder, "memory.adf")
    write_image(image, volume)
    told = subprocess.run(["/usr/bin/time", "-f", "%M", fcore, image], stdin=subprocess.DEVNULL, stderr=subprocess.PIPE, check=True).stderr
    return int(told) * 1024


def object_sizes(taken: Callable[[int, int], int]) -> Tuple[float, float]:
    """The bytes of a file, and of a directory without its files, by what discs of so many directories and files in each take.

    All these discs are large, and of one kind, so that what memory comes in counts little."""
    few, many = taken(1200, 20), taken(1200, 50)
    file = (many - few) / (1200 * 30)
    return file, (many - taken(600, 50)) / 600 - 50 * file


def system_calls(words: List[str], script: str) -> int:
    """How many system calls a command makes."""
    with open(script, "rb") as given:
        ran = subprocess.run(["strace", "-f", "-c", "-U", "calls", *words], stdin=given, stdout=subprocess.DEVNULL,
                             stderr=subprocess.PIPE, check=True)
    return int(ran.stderr.split()[-2])


def main(fcore: str, rounds: int = 5) -> None:
    fcore = os.path.abspath(fcore)
    with tempfile.TemporaryDirectory() as folder:
        print("| Task | fcore | beside it (above 1: fcore is slower) |\n|---|---|---|")
        for task in tasks(folder):
            contestants = {"fcore": ([fcore, task.image], task.script), **{name: (words, None) for name, words in task.others.items()}}
            least = {name: 1e9 for name in contestants}
            for _ in range(rounds):
                for name, (words, script) in contestants.items():
                    least[name] = min(least[name], seconds(task.runner(words, script)))
            ours = least.pop("fcore")
            ratios = ", ".join("%s %.2f" % (name, ours / max(time, 1e-3)) for name, time in least.items())
            print("| %s | %.3f s | %s |" % (task.name, ours, ratios or "–"), flush=True)
        if shutil.which("strace"):
            for name in ("load", "digest"):
                calls = system_calls([fcore, os.path.join(folder, "large.adf")], os.path.join(folder, name))
                print("| system calls of that `%s` | %d | – |" % (name, calls))
        if os.path.exists("/usr/bin/time"):
            file, directory = object_sizes(lambda *counts: memory(fcore, folder, large.with_directories(*counts)))
            print("| memory of a file, and of a directory without its files | %d bytes, %d bytes | – |" % (file, directory))


if __name__ == "__main__":
    if len(sys.argv) not in (2, 3):
        sys.exit(__doc__)
    main(sys.argv[1], *map(int, sys.argv[2:]))
