#!/usr/bin/env python3
# SPDX-License-Identifier: MIT
"""Compacts fragmented discs with the built program, and looks at what a crash at any moment would have left.

usage: tools/run checks/crash PROGRAM [DISCS]    30 discs, if no number is given
       tools/run checks/crash --self-test        the same looks over a compactor of its own, and over one with planted faults

What the program writes and when it syncs is recorded (check_outside.c). A crash leaves each sector as it was at some moment since
the last sync, whatever the others are: so for moments in the record, versions of the sectors are drawn by chance, and the disc is
read by tools/reference/format_reader.py. It has to open, with every object at its address and with its bytes. At the end nothing must be
left to do, identifiers 1, 2 and lost ones must have their runs, and the two copies of the map must be equal.
"""
from __future__ import annotations

import hashlib
import os
import random
import subprocess
import sys
import tempfile
from typing import Dict, Iterator, List, Optional, Set, Tuple, Union

from tools.files import built_shim
from tools.images.fragmented import SHAPES, fragmented
from tools.images.volumes import NewVolume
from tools.reference.format_reader import Bad, Disc, Record

Held = Union[List[str], List[Tuple[str, int, int, int, Optional[int], Optional[int], str]]]  # a fault's words, or objects
Steps = List[Optional[Tuple[int, bytes]]]  # a write's place and bytes; None for a sync
MOMENTS, CHOICES = 24, 2
SYNC = (1 << 64) - 1


# ---- what a disc holds


def objects(data: bytes) -> Held:
    """Each object with its address, words and the digest of its bytes; the fault, if the disc doesn't open."""
    try:
        disc = Disc(data)
    except Bad as bad:
        return ["bad-image", *map(str, bad.args)]
    found = [(one["path"], one["address"], one["length"], one["attributes"], one.get("load"), one.get("exec"),
              hashlib.sha256(disc.content(one)).hexdigest()) for one in disc.directories + disc.files]
    return sorted(found, key=lambda one: one[0])


def layout(disc: Disc) -> List[List[Tuple[int, int, Optional[int]]]]:
    """For each zone its runs in order: start and length in bytes, and the identifier, or None for a hole."""
    zones: Dict[int, List[Tuple[int, int, Optional[int]]]] = {}
    for start, size in disc.new_map.holes:
        zones.setdefault(zone_of(disc.new_map.g, start), []).append((start, size, None))
    for identifier, runs in disc.new_map.runs.items():
        for zone, (start, size) in runs:
            zones.setdefault(zone, []).append((start, size, identifier))
    return [sorted(runs) for zone, runs in sorted(zones.items())]


def zone_of(g: Record, start: int) -> int:
    bit = start // g.bit_bytes
    return next(zone for zone in range(g.zones - 1, -1, -1) if g.base(zone) <= bit)


def left_to_do(disc: Disc) -> List[str]:
    """What compaction could still do, in words."""
    g = disc.new_map.g
    movable = {identifier for identifier in disc.owned if identifier > 2}
    least = g.least * g.bit_bytes
    longest = max([size for start, size in disc.new_map.holes], default=0)
    found = []
    for runs in layout(disc):
        for (start, size, one), (after, length, other) in zip(runs, runs[1:]):
            if one is None and other is None:
                found.append("two holes touch at %d" % after)
            if one is None and other in movable and (length <= size or length >= 2 * least):
                found.append("the run at %d could slide" % after)
            if one == other and one in movable:
                found.append("two runs of identifier %d touch at %d" % (one, after))
    for identifier in sorted(movable):
        pieces = disc.new_map.runs.get(identifier, [])
        if len(pieces) > 1 and len({zone for zone, run in pieces}) <= 8 and sum(size for zone, (start, size) in pieces) <= longest:
            found.append("the runs of identifier %d could be joined" % identifier)
    return found


def fixed_runs(disc: Disc) -> Dict[int, List[Tuple[int, Tuple[int, int]]]]:
    return {identifier: runs for identifier, runs in disc.new_map.runs.items() if identifier < 3 or identifier not in disc.owned}


def copies(disc: Disc, data: bytes) -> Tuple[bytes, bytes]:
    g = disc.new_map.g
    start, size = g.map_sector() * g.sector, g.zones * g.sector
    return data[start:start + size], data[start + size:start + 2 * size]


def faults_at_end(before: bytes, after: bytes) -> List[str]:
    """What is wrong with the disc at the end, in words."""
    if objects(after) != objects(before):
        return ["other objects at the end: %s" % objects(after)[:2]]
    was, now = Disc(before), Disc(after)
    found = left_to_do(now)[:3]
    if fixed_runs(now) != fixed_runs(was):
        found.append("a run that mustn't move has moved")
    if len(set(copies(now, after))) != 1:
        found.append("the two copies differ")
    return found


# ---- crashes


def steps_of(record: bytes) -> Steps:
    """The steps of a record."""
    at = 0
    found: Steps = []
    while at < len(record):
        place, count = (int.from_bytes(record[at + n:at + n + 8], "little") for n in (0, 8))
        at += 16
        if place == SYNC:
            found.append(None)
        else:
            found.append((place, record[at:at + count]))
            at += count
    return found


class Crashes:
    """The images that crashes leave, along a record."""

    def __init__(self, image: bytes, steps: Steps, sector: int, chance: random.Random) -> None:
        self.image, self.steps, self.sector, self.chance = bytearray(image), steps, sector, chance

    def versions(self, pending: List[Tuple[int, bytes]]) -> Dict[int, List[bytes]]:
        """For each sector the versions that it had since the last sync."""
        found: Dict[int, List[bytes]] = {}
        for place, content in pending:
            for at in range(place // self.sector, -(-(place + len(content)) // self.sector)):
                held = found.setdefault(at, [bytes(self.image[self.sector * at:self.sector * (at + 1)])])
                start = max(place, self.sector * at)
                end = min(place + len(content), self.sector * (at + 1))
                version = bytearray(held[-1])
                version[start - self.sector * at:end - self.sector * at] = content[start - place:end - place]
                held.append(bytes(version))
        return found

    def drawn(self, pending: List[Tuple[int, bytes]]) -> bytes:
        image = bytearray(self.image)
        for at, held in self.versions(pending).items():
            image[self.sector * at:self.sector * (at + 1)] = self.chance.choice(held)
        return bytes(image)

    def apply(self, pending: List[Tuple[int, bytes]]) -> None:
        for place, content in pending:
            self.image[place:place + len(content)] = content

    def each(self, moments: Set[int]) -> Iterator[Tuple[int, bytes]]:
        """Images of crashes at the moments, numbers of calls done."""
        pending: List[Tuple[int, bytes]] = []
        for number, step in enumerate(self.steps, 1):
            if step is None:
                self.apply(pending)
                pending = []
            else:
                pending.append(step)
            if number in moments:
                for choice in range(CHOICES):
                    yield number, self.drawn(pending)
        self.apply(pending)


def crash_faults(image: bytes, steps: Steps, sector: int,
                 chance: random.Random) -> Tuple[List[str], bytes]:
    """The first crash that loses something, in words, and the image at the end."""
    wanted = objects(image)
    numbers = range(1, len(steps) + 1)
    moments = set(chance.sample(numbers, min(MOMENTS, len(steps))))
    crashes = Crashes(image, steps, sector, chance)
    found: List[str] = []
    for number, left in crashes.each(moments):
        held = objects(left)
        if held != wanted and not found:
            found.append("a crash after call %d of %d leaves %s" % (number, len(steps), str(held[:4])[:200]))
    return found, bytes(crashes.image)


# ---- the program


def with_torn_copy(image: bytearray, seed: int) -> bytes:
    """Every third disc has copies that differ, and every sixth counts by copy 2."""
    if seed % 3:
        return bytes(image)
    disc = Disc(image)
    g, torn = disc.new_map.g, bytearray(image)
    torn[g.map_sector() * g.sector + (g.zones * g.sector if seed % 6 else 0)] ^= 1
    return bytes(torn)


def compacted(program: str, shim: str, folder: str, image: bytes) -> Tuple[Steps, bytes, List[str]]:
    """The record of the program's writes over the image, and what is wrong with the run."""
    path, record = os.path.join(folder, "disc"), os.path.join(folder, "record")
    for name, content in ((path, image), (record, b"")):
        with open(name, "wb") as file:
            file.write(content)
    ran = subprocess.run([program, path], input=b"compact\n", stdout=subprocess.PIPE, check=False,
                         env={"LD_PRELOAD": shim, "OUTSIDE_RECORD": record})
    with open(record, "rb") as file:
        steps = steps_of(file.read())
    with open(path, "rb") as file:
        end = file.read()
    wrong = [] if (ran.returncode, ran.stdout) == (0, b"ok\n") else ["status %d, output %s" % (ran.returncode, ran.stdout[:80])]
    return steps, end, wrong


def look(image: bytes, steps: Steps, chance: random.Random) -> Tuple[List[str], bytes]:
    """All that is wrong with the record of a compaction, and the image at its end."""
    found, end = crash_faults(image, steps, Disc(image).map.sector, chance)
    if steps and steps[-1] is not None:
        found.append("the last call is no sync")
    return found + faults_at_end(image, end), end


def check(program: str, discs: int) -> bool:
    failures, calls = [], 0
    with tempfile.TemporaryDirectory() as folder:
        shim = built_shim(folder)
        names = sorted(SHAPES)
        for seed in range(discs):
            name = names[seed % len(names)]
            image = with_torn_copy(fragmented(name, seed).image(), seed)
            steps, end, wrong = compacted(os.path.realpath(program), shim, folder, image)
            found, recorded = look(image, steps, random.Random(seed))
            if recorded != end:
                found.append("the record isn't all that was written")
            calls += len(steps)
            failures += ["%s, seed %d: %s" % (name, seed, one) for one in wrong + found]
    print("\n".join(failures + ["%d discs, %d calls, %d failed" % (discs, calls, len(failures))]))
    return not failures


# ---- the self-test: one run slides into the hole before it


def slid(volume: NewVolume, most: bool) -> Optional[Tuple[int, int, int, int]]:
    """The zone, the place of the hole, and the runs afterwards, where a movable run follows a hole: one that fits, or a longer one."""
    owned = volume.owned() - {1, 2}
    for zone, runs in enumerate(volume.runs):
        for at, ((size, one), (length, other)) in enumerate(zip(runs, runs[1:])):
            if one is None and other in owned and (length <= size) == most:
                bit = volume.shape.base(zone) + sum(bits for bits, owner in runs[:at])
                runs[at:at + 2] = [(length, other), (size, None)]
                return zone, bit, size, length
    return None


def stand_in(volume: NewVolume, image: bytes, fault: Optional[str]) -> Steps:
    """What a compactor of one step writes: bytes into the hole, a sync, and one zone in both copies."""
    shape = volume.shape
    zone, bit, size, length = slid(volume, fault != "own place")
    to, start, count = bit * shape.bit_bytes, (bit + size) * shape.bit_bytes, length * shape.bit_bytes
    sector = bytes(volume.zone_sector(zone))
    first = (shape.map_sector + zone) * shape.sector
    steps = [(to, bytes(image[start:start + count])), None, (first, sector), None, (first + shape.zones * shape.sector, sector), None]
    if fault == "no sync":
        del steps[1]
    if fault == "one copy":
        del steps[4:]
    return steps


def self_test() -> bool:
    failures = []
    for fault in (None, "no sync", "own place", "one copy"):
        caught = 0
        for seed in range(8):
            volume = fragmented("F" if seed % 2 else "nine-zones", seed)
            image = bytes(volume.image())
            found, end = look(image, stand_in(volume, image, fault), random.Random(seed))
            losses = [one for one in found if "crash" in one or "copies differ" in one or "other objects" in one]
            caught += bool(losses)
            if not fault and losses:
                failures.append("seed %d: %s" % (seed, losses))
        if fault and caught < 4:
            failures.append("%s was seen on %d discs of 8" % (fault, caught))
        print("%s: %d of 8 discs lose something" % (fault or "no fault", caught))
    print("\n".join(failures))
    return not failures


if __name__ == "__main__":
    if sys.argv[1:] == ["--self-test"]:
        sys.exit(0 if self_test() else 1)
    if len(sys.argv) not in (2, 3):
        sys.exit(__doc__)
    sys.exit(0 if check(sys.argv[1], int(sys.argv[2]) if len(sys.argv) == 3 else 30) else 1)
