# SPDX-License-Identifier: MIT
"""Signs that a drive didn't read what was on a disc: tracks of one pattern, tracks that were read twice, sectors that repeat."""
from __future__ import annotations

from array import array
from bisect import bisect_left, bisect_right
from typing import Dict, Iterator, List, Optional, Tuple

from .discs import Disc
from .places import Extent
from .source import Source
from .walk import Found

ONE_PATTERN = "a whole track of it has the same bytes in every sector: an unread or newly formatted track?"
TWO_TRACKS = "two tracks near to each other have the same bytes: one may have been read in place of the other"
REPEATED = "two of its sectors, one after the other, have the same bytes: the second may not have been read"
MOST_RECENT = 4096  # tracks; a neighbour is never farther
GIVEN_UP = "a sector of it is one that the program which read the disc couldn't read, and filled with its mark"
FILLINGS = (b"-=[BAD SECTOR]=-",)  # as Greaseweazle fills sectors
LONGEST_PERIOD = 64  # bytes; sectors of a pattern that is no longer repeat without a fault


class Ranges:
    """Pieces of the disc, in their order: where each begins and ends."""

    def __init__(self, ranges: List[Tuple[int, int]]):
        self.ranges = sorted(ranges)
        self.starts = [start for start, _ in self.ranges]

    def meets(self, extent: Extent) -> bool:
        start, length = extent
        at = bisect_left(self.starts, start + length) - 1
        return at >= 0 and self.ranges[at][1] > start


class Marks:
    """The tracks and sectors of an image that look wrong by their bytes alone."""

    def __init__(self, disc: Disc, source: Source):
        self.disc, self.source = disc, source
        plain: List[Tuple[int, int]] = []  # tracks of one pattern
        twice: List[Tuple[int, int]] = []  # tracks that a neighbour equals
        self.repeats = array("q")  # sectors that are as the one before
        self.given_up = array("q")  # sectors that are filled with the mark of the program that read the disc
        if disc.track:
            self.look(plain, twice)
        self.plain, self.twice = Ranges(plain), Ranges(twice)
        self.alone = Ranges([one for one in joined(plain) if self.stands_out(*one)])

    def look(self, plain: List[Tuple[int, int]], twice: List[Tuple[int, int]]) -> None:
        sector, track = self.disc.sector, self.disc.track
        recent: Dict[int, int] = {}  # the last track with these bytes, by their digest
        last = b""
        for place, block in tracks(self.source, self.disc):
            is_plain = block == block[:sector] * (len(block) // sector)
            if is_plain:
                plain.append((place, place + track))
            else:
                before = self.equal_neighbour(recent, place // track, block)
                if before is not None:
                    twice += [(before * track, (before + 1) * track), (place, place + track)]
            self.note_sectors(place, last, block, is_plain)
            last = block[-sector:]

    def equal_neighbour(self, recent: Dict[int, int], number: int, block: bytes) -> Optional[int]:
        """The track near to this one that has the same bytes."""
        before = recent.get(hash(block))
        if len(recent) > MOST_RECENT:
            recent.clear()
        recent[hash(block)] = number
        track = self.disc.track
        if before is not None and number - before in self.disc.neighbours and self.source.read(before * track, track) == block:
            return before
        return None

    def note_sectors(self, place: int, last: bytes, block: bytes, is_plain: bool) -> None:
        for at in range(0, len(block), self.disc.sector):
            one = block[at:at + self.disc.sector]
            if one[:16] in FILLINGS and one == one[:16] * (len(one) // 16):
                self.given_up.append(place + at)
            elif one == last and not is_plain and not has_short_period(one):
                self.repeats.append(place + at)
            last = one

    def stands_out(self, start: int, end: int) -> bool:
        """Whether tracks of one pattern have other bytes on both sides."""
        sector = self.disc.sector
        block = self.source.read(start, sector)
        return block not in (self.source.read(start - sector, sector), self.source.read(end, sector))

    def judge(self, found: Found, is_natural: bool) -> None:
        """Doubts a file by its sectors. `is_natural`: it may have the same bytes throughout, where no track begins or ends so."""
        for extent in found.place.extents:
            if (self.alone if is_natural else self.plain).meets(extent):
                found.doubt(ONE_PATTERN)
            if self.twice.meets(extent):
                found.doubt(TWO_TRACKS)
            start, length = extent
            if bisect_left(self.given_up, start) < bisect_left(self.given_up, start + length):
                found.doubt(GIVEN_UP)
            if self.repeats_in(found, extent):
                found.doubt(REPEATED)

    def repeats_in(self, found: Found, extent: Extent) -> bool:
        """Whether a sector of the file is as the one before. The first one counts too, unless the file is a small one: that can be
        a copy of the one beside it."""
        start, length = extent
        first = bisect_right(self.repeats, start) if found.item.length <= self.disc.sector else bisect_left(self.repeats, start)
        return first < bisect_left(self.repeats, start + length)


def joined(ranges: List[Tuple[int, int]]) -> Iterator[Tuple[int, int]]:
    """Ranges that touch each other as one."""
    begin = end = 0
    for start, after in ranges:
        if start != end:
            if end:
                yield begin, end
            begin = start
        end = after
    if end:
        yield begin, end


def tracks(source: Source, disc: Disc) -> Iterator[Tuple[int, bytes]]:
    """The whole tracks that are there, with their places."""
    for place in range(0, disc.size, disc.track):
        if place > source.length + (source.gap.size if source.gap else 0):
            return
        block = source.read(place, disc.track)
        if len(block) == disc.track:
            yield place, block


def has_short_period(sector: bytes) -> bool:
    period = 1
    while period <= LONGEST_PERIOD:
        if sector[period:] == sector[:-period]:
            return True
        period *= 2
    return False
