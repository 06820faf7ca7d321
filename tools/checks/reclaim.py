#!/usr/bin/env python3
# SPDX-License-Identifier: MIT
"""Gives lost space back on fragmented discs with the built program, and looks at what a crash at any moment would have left.

usage: tools/run checks/reclaim PROGRAM [DISCS]    30 discs, if no number is given
       tools/run checks/reclaim --self-test        the same looks over a stand-in for the program, and over it with planted faults

Each disc has lost runs in many zones, next to holes that touch each other, at the ends of zones, and two in a row; on some the map or
the boot block lies in a lost run, which stays. What the program answers and leaves is judged by `expected`, which is written from
docs/FORMAT.md and says what becomes of each run. What it writes is recorded as
in checks/crash: at each crash every object has its address and bytes, and every identifier that is owned, 1 and 2 keep their runs;
no byte outside the two copies of the map differs. Runs in which a write or a sync fails are judged as crashes are.
"""
from __future__ import annotations

import os
import random
import subprocess
import sys
import tempfile
from typing import Dict, List, Optional, Tuple

from tools.checks.crash import MOMENTS, Crashes, Steps, copies, layout, objects, steps_of, with_torn_copy
from tools.files import built_shim
from tools.images.fragmented import SHAPES, Fragmenter
from tools.images.volumes import NewVolume, Part
from tools.reference.format_reader import Disc, boot_check, valid

Run = Tuple[int, int, Optional[int]]  # start and length in bytes, and identifier; None for a hole
Answer = Tuple[int, bytes]  # status and output
BOOT_BLOCK, BOOT_END = 0xC00, 0xE00
KEPT = (1, 2)  # identifiers that are never lost
FAILING = (("pwrite", 1), ("pwrite", 2), ("fsync", 1), ("fsync", 3))


# ---- what has to become of a disc


def has_boot_block(data: bytes) -> bool:
    """Whether a boot block fits, whatever the disc is opened as."""
    block = data[BOOT_BLOCK:BOOT_END]
    return len(data) >= BOOT_END and block[511] == boot_check(block) and valid(block[0x1C0:0x1FC])


def reserved_bytes(disc: Disc, data: bytes) -> List[Tuple[int, int]]:
    """What a run that goes back may not hold, as rows of bytes."""
    g = disc.new_map.g
    start = g.map_sector() * g.sector
    found = [(start, start + 2 * g.zones * g.sector)]
    if has_boot_block(data):
        found.append((BOOT_BLOCK // g.sector * g.sector, -(-BOOT_END // g.sector) * g.sector))
    return found


def goes_back(disc: Disc, reserved: List[Tuple[int, int]], run: Run) -> bool:
    start, size, identifier = run
    lost = identifier is not None and identifier not in KEPT and identifier not in disc.owned
    return lost and not any(start < end and first < start + size for first, end in reserved)


def joined(row: List[Tuple[Run, bool]]) -> List[Run]:
    """Runs that touch, some of which go back: one hole if any does, else as they are."""
    if not any(goes for run, goes in row):
        return [run for run, goes in row]
    first, last = row[0][0], row[-1][0]
    return [(first[0], last[0] + last[1] - first[0], None)]


def expected(data: bytes) -> Tuple[List[List[Run]], int]:
    """For each zone the runs that it must have, and the bytes that are given back."""
    disc = Disc(data)
    reserved, zones, given = reserved_bytes(disc, data), [], 0
    for runs in layout(disc):
        found, row = [], []
        for run in runs:
            goes = goes_back(disc, reserved, run)
            given += run[1] * goes
            if goes or run[2] is None:
                row.append((run, goes))
            else:
                found += (joined(row) if row else []) + [run]
                row = []
        zones.append(found + (joined(row) if row else []))
    return zones, given


def kept_runs(data: bytes) -> Dict[int, List[Tuple[int, Tuple[int, int]]]]:
    """The runs of identifiers that stay."""
    disc = Disc(data)
    return {identifier: runs for identifier, runs in disc.new_map.runs.items() if identifier in KEPT or identifier in disc.owned}


def outside_map(data: bytes) -> bytes:
    disc = Disc(data)
    g = disc.new_map.g
    start = g.map_sector() * g.sector
    return data[:start] + data[start + 2 * g.zones * g.sector:]


def faults_left(before: bytes, after: bytes) -> List[str]:
    """What is wrong with an image that a crash or an exit leaves, in words."""
    if objects(after) != objects(before):
        return ["other objects: %s" % str(objects(after)[:2])[:200]]
    found = []
    if kept_runs(after) != kept_runs(before):
        found.append("an owned identifier, 1 or 2 has other runs")
    if outside_map(after) != outside_map(before):
        found.append("a byte outside the map has changed")
    return found


def faults_at_end(before: bytes, after: bytes) -> List[str]:
    found = faults_left(before, after)
    if found:
        return found
    if layout(Disc(after)) != expected(before)[0]:
        zone = next(z for z, (now, wanted) in enumerate(zip(layout(Disc(after)), expected(before)[0])) if now != wanted)
        found.append("zone %d has other runs than it must have" % zone)
    if len(set(copies(Disc(after), after))) != 1:
        found.append("the two copies differ")
    return found


def crash_faults(image: bytes, steps: Steps, chance: random.Random) -> Tuple[List[str], bytes]:
    """The first crash that leaves something wrong, in words, and the image at the end."""
    crashes = Crashes(image, steps, Disc(image).map.sector, chance)
    numbers = range(1, len(steps) + 1)
    found = []
    for number, left in crashes.each(set(chance.sample(numbers, min(MOMENTS, len(steps))))):
        wrong = faults_left(image, left)
        if wrong and not found:
            found.append("a crash after call %d of %d: %s" % (number, len(steps), wrong[0]))
    return found, bytes(crashes.image)


# ---- discs


def lose(volume: NewVolume, chance: random.Random) -> None:
    """Makes runs of some holes that belong to no object: two in a row, and at the ends of zones."""
    shape = volume.shape
    lost = [volume.new_identifier() for at in range(3)]
    for runs in volume.runs:
        at = 0
        while at < len(runs):
            length, owner = runs[at]
            if owner is None and chance.random() < 0.4:
                one = chance.choice(lost)
                if length >= 2 * shape.least and chance.random() < 0.5:
                    half = length // 2 // shape.multiple * shape.multiple
                    if half >= shape.least and length - half >= shape.least:
                        runs[at:at + 1] = [(half, one), (length - half, chance.choice(lost))]
                        at += 1
                        length = length - half
                        at += 1
                        continue
                runs[at] = length, one
            at += 1
    lose_reserved(volume, chance, lost)


def lose_reserved(volume: NewVolume, chance: random.Random, lost: List[int]) -> None:
    """The runs in which the map and the boot block lie, but the one with the root, are lost in half of all cases."""
    holds_root = volume.root.address // 256 == 2
    for zone, runs in enumerate(volume.runs):
        for at, (length, owner) in enumerate(runs):
            if owner == 2 and not (holds_root and zone == len(volume.runs) // 2) and chance.random() < 0.5:
                runs[at] = length, chance.choice(lost)


def losing(name: str, seed: int) -> bytes:
    volume = SHAPES[name]()
    Fragmenter(volume, seed).fill(2)
    lose(volume, random.Random(seed))
    return with_torn_copy(volume.image(), seed)


# ---- the program


def reclaimed(program: str, shim: str, folder: str, image: bytes, faults: Optional[str] = None) -> Tuple[Steps, Answer, bytes]:
    """The record of the program's writes over the image, its status and output, and the image at its end."""
    path, record = os.path.join(folder, "disc"), os.path.join(folder, "record")
    for name, content in ((path, image), (record, b"")):
        with open(name, "wb") as file:
            file.write(content)
    environment = {"LD_PRELOAD": shim, "OUTSIDE_RECORD": record}
    if faults:
        environment["OUTSIDE_FAULTS"] = faults
    ran = subprocess.run([program, path], input=b"reclaim\n", stdout=subprocess.PIPE, check=False, env=environment)
    with open(record, "rb") as file:
        steps = steps_of(file.read())
    with open(path, "rb") as file:
        return steps, (ran.returncode, ran.stdout), file.read()


def look(image: bytes, steps: Steps, answer: Answer, chance: random.Random) -> Tuple[List[str], bytes]:
    """All that is wrong with one run, and the image that its record comes to."""
    found, end = crash_faults(image, steps, chance)
    wanted = 0, b"reclaimed %d\nok\n" % expected(image)[1]
    if answer != wanted:
        found.append("status %d, output %s" % (answer[0], answer[1][:80]))
    if steps and steps[-1] is not None:
        found.append("the last call is no sync")
    return found + faults_at_end(image, end), end


def check(program: str, discs: int) -> bool:
    failures, calls, given = [], 0, 0
    with tempfile.TemporaryDirectory() as folder:
        shim, program, names = built_shim(folder), os.path.realpath(program), sorted(SHAPES)
        for seed in range(discs):
            name = names[seed % len(names)]
            image = losing(name, seed)
            steps, answer, end = reclaimed(program, shim, folder, image)
            found, recorded = look(image, steps, answer, random.Random(seed))
            if recorded != end:
                found.append("the record isn't all that was written")
            for kind, number in FAILING:
                broken, status, left = reclaimed(program, shim, folder, image, "%s:%d:%d:error" % (kind, number, number))
                found += ["%s %d fails: %s" % (kind, number, one) for one in faults_left(image, left)]
                if status[0] not in (0, 4):
                    found.append("%s %d fails: status %d" % (kind, number, status[0]))
            calls += len(steps)
            given += expected(image)[1]
            failures += ["%s, seed %d: %s" % (name, seed, one) for one in found]
    print("\n".join(failures + ["%d discs, %d calls, %d bytes given back, %d failed" % (discs, calls, given, len(failures))]))
    return not failures


# ---- the self-test


def stand_in(name: str, seed: int, fault: Optional[str]) -> Tuple[bytes, Steps, Answer]:
    """An image, and what a program that gives its lost runs back would write and answer."""
    volume = SHAPES[name]()
    Fragmenter(volume, seed).fill(2)
    lose(volume, random.Random(seed))
    image = bytes(volume.image())
    disc, shape = Disc(image), volume.shape
    reserved, given, steps = reserved_bytes(disc, image), 0, []
    for zone, runs in enumerate(volume.runs):
        row, at = [], shape.base(zone)
        for length, owner in runs:
            run = at * shape.bit_bytes, length * shape.bit_bytes, owner
            goes = goes_back(disc, [] if fault == "reserved" else reserved, run)
            if fault == "owned" and owner is not None and owner not in KEPT and owner in disc.owned:
                goes, fault = True, "done"
            given += run[1] * goes
            row.append((length, None if goes else owner, goes))
            at += length
        if not any(goes for length, owner, goes in row):
            continue
        volume.runs[zone] = [(length, owner) for length, owner, goes in row] if fault == "touching" else joined_bits(row)
        first = (shape.map_sector + zone) * shape.sector
        sector = bytes(volume.zone_sector(zone))
        steps += [(first, sector), None, (first + shape.zones * shape.sector, sector), None]
    if fault == "nothing":
        steps, given = [], 0
    return image, steps, (0, b"reclaimed %d\nok\n" % given)


def joined_bits(row: List[Tuple[int, Optional[int], bool]]) -> List[Part]:
    """The runs of a zone, lengths in bits, with the holes that have become of some joined with those that touch them."""
    found, chain = [], []
    for length, owner, goes in row + [(0, 0, False)]:
        if owner is None:
            chain.append((length, goes))
            continue
        if any(goes for bits, goes in chain):
            chain = [(sum(bits for bits, goes in chain), True)]
        found += [(bits, None) for bits, goes in chain] + ([(length, owner)] if length else [])
        chain = []
    return found


def self_test() -> bool:
    failures = []
    for fault in (None, "owned", "nothing", "touching", "reserved"):
        caught, discs = 0, 0
        for seed in range(1, 9, 2):
            for name in ("F", "nine-zones") if fault != "reserved" else ("four-zones", "nine-zones"):
                image, steps, answer = stand_in(name, seed, fault)
                found, end = look(image, steps, answer, random.Random(seed))
                caught += bool(found)
                discs += 1
                if not fault and found:
                    failures.append("%s, seed %d: %s" % (name, seed, found))
        if fault and caught < discs // 2:
            failures.append("%s was seen on %d discs of %d" % (fault, caught, discs))
        print("%s: %d of %d discs are wrong" % (fault or "no fault", caught, discs))
    print("\n".join(failures))
    return not failures


if __name__ == "__main__":
    if sys.argv[1:] == ["--self-test"]:
        sys.exit(0 if self_test() else 1)
    if len(sys.argv) not in (2, 3):
        sys.exit(__doc__)
    sys.exit(0 if check(sys.argv[1], int(sys.argv[2]) if len(sys.argv) == 3 else 30) else 1)
