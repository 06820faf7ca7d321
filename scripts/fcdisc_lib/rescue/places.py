# SPDX-License-Identifier: MIT
"""Where objects lie: what a map of either kind has to tell, and the space of old maps."""
from __future__ import annotations

from typing import List, NamedTuple, Optional, Tuple

from .checks import is_old_half, number
from .discs import UNIT, Disc
from .records import FRESH_RUNS
from .source import Source

Extent = Tuple[int, int]  # the place of its first byte on the disc, and its bytes
DAMAGED_MAP = "the map is damaged where it lies"


class Place(NamedTuple):
    """Where an object lies, as far as the map tells: whole sectors, `missing` bytes of it nowhere, and why this is doubtful."""

    extents: List[Extent]
    missing: int
    doubts: Tuple[str, ...] = ()


class Space:
    """What both kinds of maps have: the extents of the map itself, those of free space, and remarks for the report."""

    def __init__(self, disc: Disc):
        self.disc = disc
        self.reserved: List[Extent] = []
        self.holes: List[Extent] = []
        self.remarks: List[str] = []
        self.root = self.root_size = 0
        self.is_right = True  # whether nothing of the map is damaged
        self.has_rivals = False  # whether both copies of the map are right where they differ
        self.right_parts = 0  # halves or zones with a right check: a measure of how well a description fits

    def sectors(self, length: int) -> int:
        return -(-length // self.disc.sector)

    def place(self, address: int, length: int) -> Place:
        raise NotImplementedError

    def can_be(self, address: int, length: int) -> bool:
        """Whether an object of more than 0 bytes can have this address and length."""
        return not self.place(address, length).missing

    def address_at(self, place: int) -> Optional[int]:
        """The address that leads to that place."""
        raise NotImplementedError

    def at(self, place: int, length: int) -> Place:
        """An object that begins there."""
        raise NotImplementedError


class OldSpace(Space):
    """A disc with an old map: its addresses are places, and its map is needed for free space alone."""

    def __init__(self, disc: Disc, source: Source):
        super().__init__(disc)
        self.reserved = [(0, 1024 if disc.form == "D" else 512)]
        self.root, self.root_size = (4, 2048) if disc.form == "D" else (2, 1280)
        block = source.read(0, 512)
        right = [is_old_half(block[:256]), is_old_half(block[256:])]
        self.right_parts = sum(right)
        if all(right):
            self.read_holes(block)
        else:
            self.is_right = False
            self.remarks.append("its list of free space is damaged: what lies in free space isn't noticed")

    def read_holes(self, block: bytes) -> None:
        for at in range(0, min(block[510], 246) // 3 * 3, 3):
            start, length = number(block, at, 3) * UNIT, number(block, 256 + at, 3) * UNIT
            if not length or start + length > self.disc.size or start % self.disc.sector or length % self.disc.sector:
                self.is_right = False
                self.remarks.append("hole %d of the list of free space can't be" % (at // 3))
            else:
                self.holes.append((start, length))

    def place(self, address: int, length: int) -> Place:
        return self.at(address * UNIT, length)

    def at(self, place: int, length: int) -> Place:
        sector, size = self.disc.sector, self.disc.size
        if place % sector or place >= size:
            return Place([], length)
        taken = min(length, size - place)
        return Place([(place, self.sectors(taken) * sector)], length - taken)

    def can_be(self, address: int, length: int) -> bool:
        return address * UNIT >= self.reserved[0][1] and super().can_be(address, length)

    def address_at(self, place: int) -> Optional[int]:
        return place // UNIT


def fresh_runs(disc: Disc) -> List[Tuple[int, int, int]]:
    """Where map and root of a floppy with a new map lie, whatever its map says: identifier, map bit, bits."""
    found = FRESH_RUNS.get(disc.form, {})
    return [(identifier, *run) for identifier, runs in found.items() for run in runs]
