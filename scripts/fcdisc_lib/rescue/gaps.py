# SPDX-License-Identifier: MIT
"""Where a short image lacks a piece: at its end, or inside, where a track or a sector was left out."""
from __future__ import annotations

from typing import List, NamedTuple, Tuple

from ..names import folded
from .discs import Disc
from .source import Gap, Source
from .spaces import space_of
from .strays import Stray, strays, worded_places
from .walk import Walk

LARGEST_PART = 8  # a piece inside is at most such a part of the disc
LARGEST_DISC = 1 << 21  # bytes; on a larger disc the end is taken to be missing
MOST_READ = 6000  # directories that are read to find the piece's place
READ_EACH = 30  # as many as one more attempt costs
UNSURE = "the piece that the image lacks may lie in it or before it"
Range = Tuple[int, int]
Score = Tuple[bool, int]  # whether the root reads, and how much is right


class Attempt(NamedTuple):
    """How well a disc reads with a gap that lies somewhere between two places of the image."""

    score: Score
    first: int
    last: int
    gap: Gap


def place_gap(disc: Disc, source: Source) -> Tuple[Source, Range]:
    """The source with its gap, and the range of the disc that it may shift."""
    missing = disc.size - source.length
    if missing <= 0 or missing * LARGEST_PART > disc.size or missing % disc.sector or not source.length:
        return source, (0, 0)
    if disc.size > LARGEST_DISC:
        return source, (last_directory(disc, source), disc.size)
    tries = attempts(disc, source, missing)
    most = max(one.score for one in tries)
    best = [one for one in tries if one.score == most]
    return source.with_gap(best[-1].gap), (best[0].first, best[-1].last + missing)


def attempts(disc: Disc, source: Source, missing: int) -> List[Attempt]:
    """A gap before each directory and each copy of the map that may be in the image, and one at its end."""
    unit = disc.track if disc.track and missing % disc.track == 0 else disc.sector
    fixed = {start - shift for start, _ in space_of(disc, source).reserved for shift in (0, missing) if start >= shift}
    places = sorted({*fixed, *worded_places(source, disc)})
    found, before, budget = [], 0, MOST_READ
    for place in [*(one for one in places if one < source.length), source.length]:
        at = place // unit * unit
        if at >= before and budget > 0:
            gap = Gap(at, missing)
            score, read = rightness(disc, source.with_gap(gap))
            budget -= read + READ_EACH
            found.append(Attempt(score, before, place, gap))
        before = place + disc.sector
    return found or [Attempt((False, 0), 0, source.length, Gap(source.length, missing))]


def rightness(disc: Disc, source: Source) -> Tuple[Score, int]:
    """Whether the root reads and how many parts of the map and directories are right, and how many directories were read."""
    space = space_of(disc, source)
    walk = Walk(disc, space, source, 0)
    walk.run()
    right = sum(not one.listing.fault for one in walk.directories)
    if not walk.root.listing.is_lost:
        return (True, space.right_parts + right), len(walk.directories)
    found = strays(walk)
    return (False, space.right_parts + right + led_to(walk, found)), len(walk.directories) + len(found)


def led_to(walk: Walk, found: List[Stray]) -> int:
    """How often directories lead to each other, by their names too: by entries, and by parent fields. The root is lost."""
    def start_of(address: int) -> int:
        extents = walk.space.place(address, walk.disc.sector).extents
        return extents[0][0] if extents else -1

    inner = {(one.start, folded(one.listing.name)) for one in found}
    outer = {(start_of(one.listing.parent), folded(one.listing.name)) for one in found}
    entries = [(one.start, item) for one in found for item in one.listing.items if item.is_directory]
    return sum(((start_of(item.address), folded(item.name)) in inner) + ((start, folded(item.name)) in outer)
               for start, item in entries)


def last_directory(disc: Disc, source: Source) -> int:
    """The end of the last directory that is where it should be."""
    walk = Walk(disc, space_of(disc, source), source)
    walk.run()
    ends = [start + length for one in walk.directories if not one.listing.fault for start, length in one.place.extents]
    return max(ends, default=0)
