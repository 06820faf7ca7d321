# SPDX-License-Identifier: MIT
"""Makes badly fragmented discs with new maps: files in many runs over several zones, shared identifiers, lost runs, holes that touch.

What a disc holds follows from its shape and a seed alone. No code is shared with fcore.
"""
from __future__ import annotations

import random
from typing import Dict, Iterator, List, Optional, Tuple

from tools.images.volumes import FRESH_NEW, Directory, File, NewVolume, Part, record_bytes

IDENTIFIER_1 = 1


def hard_disc(log2_sector: int, idlen: int, log2_bit: int, zones: int, spare: int = 32, big: bool = False,
              **others: int) -> NewVolume:
    """A disc with a boot block, all of whose zones are whole."""
    zone_bits = (8 << log2_sector) - spare
    size = (zones * zone_bits - 480) << log2_bit
    if big:
        others.update(version=1, root_size=4096)
    volume = NewVolume(record_bytes(log2_sector, idlen, log2_bit, zones, spare, 0x301 if big else 0x300, size, **others), True)
    volume.root.size = 4096
    shape = volume.shape
    volume.take(2, zones // 2, shape.units(2 * zones * shape.sector))
    volume.take(2, 0, shape.units(0xE00))
    volume.take(volume.new_identifier(), zones // 2, shape.units(4096 if big else 2048))
    return volume


SHAPES = {
    **{name: FRESH_NEW[name] for name in ("E", "F", "E+", "F+")},
    "four-zones": lambda: hard_disc(8, 12, 6, 4),
    "nine-zones": lambda: hard_disc(9, 13, 7, 9, share=1),
    "sixteen-zones": lambda: hard_disc(8, 11, 8, 16),
    "big-twelve-zones": lambda: hard_disc(9, 16, 8, 12, big=True),
}


class Fragmenter:
    """Cuts the free runs of a volume into parts, and gives them to objects."""

    def __init__(self, volume: NewVolume, seed: float, most_bits: int = 4) -> None:
        self.volume, self.shape, self.random = volume, volume.shape, random.Random(seed)
        self.most_bits = most_bits  # the longest part, in shortest runs
        self.parts: List[Tuple[int, int]] = []  # zones and places of the parts that objects may have
        for zone in range(self.shape.zones):
            self.cut_zone(zone)
        self.random.shuffle(self.parts)

    def part_bits(self, room: int) -> int:
        shape = self.shape
        steps = shape.least // shape.multiple
        bits = shape.multiple * self.random.randint(steps, self.most_bits * steps)
        return room if room - bits < shape.least else bits

    def cut_zone(self, zone: int) -> None:
        """Holes, runs of objects and lost runs in turn by chance; two holes may touch."""
        runs: List[Part] = []
        for length, owner in self.volume.runs[zone]:
            while owner is None and length:
                bits = self.part_bits(length)
                length -= bits
                chance = self.random.random()
                if chance < 0.5:
                    self.parts.append((zone, len(runs)))
                runs.append((bits, None if chance < 0.9 else "lost"))
            if owner is not None:
                runs.append((length, owner))
        self.volume.runs[zone] = runs

    def give_lost(self) -> None:
        """Lost runs, of a few identifiers, and one run of identifier 1."""
        lost = [self.volume.new_identifier() for at in range(3)]
        for zone, runs in enumerate(self.volume.runs):
            for at, (bits, owner) in enumerate(runs):
                if owner == "lost":
                    runs[at] = bits, self.random.choice(lost)
        zone, at = self.parts.pop()
        self.volume.runs[zone][at] = self.volume.runs[zone][at][0], IDENTIFIER_1

    def identifier(self, count: int) -> Tuple[int, int]:
        """A new identifier over so many parts: the identifier, and its bytes."""
        made, room = self.volume.new_identifier(), 0
        for zone, at in self.parts[:count]:
            bits = self.volume.runs[zone][at][0]
            self.volume.runs[zone][at] = bits, made
            room += bits * self.shape.bit_bytes
        del self.parts[:count]
        return made, room

    def content(self, length: int) -> bytes:
        return self.random.randbytes(length)

    def fields(self) -> Dict[str, int]:
        return dict(attributes=self.random.choice((3, 3, 0x33, 1, 7)), load=self.random.getrandbits(32),
                    execution=self.random.getrandbits(32))

    def files(self, names: Iterator[bytes], most: int) -> List[File]:
        """The files of one identifier: one of them, or some that share it."""
        made, room = self.identifier(self.random.choice((1, 1, 1, 2, 2, 3, 4, 6, 9)))
        shape, at, low = self.shape, 0, 1
        if self.random.random() < 0.6 or room <= shape.share:
            length = self.random.randint(max(1, room - shape.sector + 1), room)
            return [File(next(names), self.content(length), made * 256, **self.fields())]
        found: List[File] = []
        while at < room and low < 256 and len(found) < most:
            length = self.random.randint(1, min(room - at, 3 * shape.share))
            found.append(File(next(names), self.content(length), made * 256 + low, **self.fields()))
            units = -(-length // shape.share)
            at, low = at + units * shape.share, low + units
        return found

    def directory(self, holder: Directory, name: bytes) -> Optional[Directory]:
        """A directory in enough parts, or None."""
        count, room = 0, 0
        while room < 2048 and count < len(self.parts):
            zone, at = self.parts[count]
            room += self.volume.runs[zone][at][0] * self.shape.bit_bytes
            count += 1
        if room < 2048:
            return None
        made = Directory(name, self.identifier(count)[0] * 256)
        made.holder = holder
        return holder.insert(made)

    def fill(self, directories: int) -> None:
        """Directories of up to 20 files each, until the parts or the identifiers are used up."""
        self.give_lost()
        holders = [self.volume.root]
        names = (b"F%04d" % at for at in range(10000))
        for at in range(directories):
            made = self.directory(self.random.choice(holders), b"D%d" % at)
            if made:
                holders.append(made)
        for holder in holders:
            room = 20
            while room and len(self.parts) > 9 and self.volume.next_identifier < self.shape.id_limit - 1:
                found = self.files(names, room)
                for file in found:
                    holder.insert(file)
                room -= len(found)
            holder.insert(File(next(names), b""))


def fragmented(shape: str, seed: int, directories: int = 4) -> NewVolume:
    """The volume of a shape by its name, filled by a seed."""
    volume = SHAPES[shape]()
    Fragmenter(volume, seed).fill(directories)
    return volume
