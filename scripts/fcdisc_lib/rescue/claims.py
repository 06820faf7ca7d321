# SPDX-License-Identifier: MIT
"""Which sectors each object has: what lies on another, on the map or in free space, and how much of each can be read."""
from __future__ import annotations

from array import array
from typing import Iterable, List, Optional, Set, Tuple

from ..names import spelled_path
from .places import Space
from .source import Source
from .walk import NOWHERE, Found

RESERVED, FREE = b"\1", b"\2"
MOST_EXTENTS = 300000  # that are kept in memory; a disc that isn't made to do harm has fewer
MOST_DISCS = 8  # as much as so many discs is written; entries of a damaged directory can all name the whole disc
LEFT_OUT = "left out, since more than %d times the disc's size would be written: --all" % MOST_DISCS


class Claims:
    """The sectors of the image, with what each is for."""

    def __init__(self, space: Space, source: Source, takes_all: bool):
        self.space, self.source, self.sector = space, source, space.disc.sector
        length = min(source.length + (source.gap.size if source.gap else 0), space.disc.size)
        self.count = -(-length // self.sector)
        self.state = bytearray(self.count)
        self.taken = bytearray(self.count)
        self.owners = array("i", bytes(4 * self.count))
        self.objects: List[Found] = []
        self.extents = 0
        self.left = None if takes_all else MOST_DISCS * length
        for start, size in space.holes:
            first, end = self.range(start, size)
            self.state[first:end] = FREE * (end - first)
        for start, size in space.reserved:
            first, end = self.range(start, size)
            if FREE in self.state[first:end]:
                space.remarks.append("its map or boot block counts as free space: write nothing to this disc")
            self.state[first:end] = RESERVED * (end - first)

    def range(self, start: int, length: int) -> Tuple[int, int]:
        first = min(start // self.sector, self.count)
        return first, max(first, min(-(-(start + length) // self.sector), self.count))

    def take(self, objects: Iterable[Found]) -> None:
        """Gives objects their sectors: first what is sure, so that a wrong entry of a damaged directory spoils nothing."""
        waiting = sorted(objects, key=lambda one: not one.is_sure)
        for found in waiting:
            if not found.is_directory:
                self.find(found)
        for found in sorted(waiting, key=lambda one: (bool(one.doubts), not one.is_directory)):
            if not found.is_directory or not found.listing.is_lost:
                self.claim(found)

    def find(self, found: Found) -> None:
        """Where a file lies, and how much of it is there."""
        length = found.item.length
        if not length:
            return
        if self.left is not None and min(length, self.source.length) > self.left or self.extents > MOST_EXTENTS:
            found.is_left_out = True
            found.doubt(LEFT_OUT)
            return
        found.place = self.space.place(found.item.address, length)
        self.extents += len(found.place.extents)
        for doubt in found.place.doubts:
            found.doubt(doubt)
        if not found.place.extents:
            found.doubt(NOWHERE)
        for start, count in found.place.extents:
            wanted = min(count, length - found.there)
            there = self.source.there(start, wanted)
            found.there += there
            if there < wanted:
                break
        if self.left is not None:
            self.left -= found.there

    def claim(self, found: Found) -> None:
        self.objects.append(found)
        others: Set[int] = set()
        for start, length in found.place.extents:
            first, end = self.range(start, length)
            if self.state.find(RESERVED, first, end) >= 0:
                found.doubt("it lies where the map or the boot block lies")
            if self.state.find(FREE, first, end) >= 0 and not found.is_deleted:
                found.doubt("it lies in free space")
            if self.taken.find(b"\1", first, end) >= 0:
                others.update(self.owners[first:end])
                others.discard(0)
            self.take_free(first, end)
        for number in sorted(others - {len(self.objects)}):
            self.overlap(found, self.objects[number - 1])

    def take_free(self, first: int, end: int) -> None:
        """Gives the object those of the sectors that nothing has yet."""
        while 0 <= (first := self.taken.find(b"\0", first, end)) < end:
            after = self.taken.find(b"\1", first, end)
            after = end if after < 0 else after
            self.taken[first:after] = b"\1" * (after - first)
            self.owners[first:after] = array("i", [len(self.objects)]) * (after - first)
            first = after

    def overlap(self, found: Found, other: Found) -> None:
        """Both are doubtful if both are told of by right directories; else the one that isn't. A right directory stays so."""
        if not other.doubts and found.is_sure and other.is_sure and not other.is_directory:
            other.doubt("it lies where %s lies" % spelled_path(found.path))
        found.doubt("it lies where %s lies" % spelled_path(other.path))

    def owner(self, place: int) -> Optional[Found]:
        """What has that place of the disc."""
        at = place // self.sector
        number = self.owners[at] if at < self.count else 0
        return self.objects[number - 1] if number else None

    def is_free(self, place: int) -> bool:
        at = place // self.sector
        return at < self.count and self.state[at] == FREE[0]
