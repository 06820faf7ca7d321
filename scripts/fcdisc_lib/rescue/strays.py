# SPDX-License-Identifier: MIT
"""Directories that nothing leads to: found by their words, wherever they lie."""
from __future__ import annotations

from typing import Iterator, List, NamedTuple, Optional

from ..names import folded
from .checks import number
from .claims import Claims
from .directories import NO_WORDS, Listing, has_words, read_listing, size_told
from .discs import UNIT, WORDS, Disc
from .places import Place
from .source import Source
from .walk import Found, Walk

MOST_STRAYS = 20000
STRAY = "no directory leads to its directory"
DELETED = "its directory lies in free space: deleted?"


class Stray(NamedTuple):
    """A directory that was found by its words."""

    start: int
    place: Place
    listing: Listing


def worded_places(source: Source, disc: Disc) -> Iterator[int]:
    """The places of the disc where a sector begins as a directory does."""
    at, words = (4, (b"SBPr",)) if disc.directories == "big" else (1, WORDS)
    gap = source.gap
    # sectors after a gap begin where those before it do, since a gap is whole sectors
    assert not gap or gap.size % disc.sector == 0
    for start, piece in source.pieces(disc.sector, 0):
        for place in range(0, len(piece), disc.sector):
            if piece[place + at:place + at + 4] in words:
                yield source.disc_place(start + place)


def strays(walk: Walk) -> List[Stray]:
    """The directories that the walk didn't find. One that isn't whole counts only if both of its ends have their words."""
    disc, source, space = walk.disc, walk.source, walk.space
    found: List[Stray] = []
    for start in worded_places(source, disc):
        if start in walk.seen or len(found) >= MOST_STRAYS:
            continue
        size = (size_told(source.read(start, 16)) or 0) if disc.directories == "big" else int(disc.directories)
        if not size or size > walk.room:
            continue
        place = space.at(start, size)
        block = walk.read_bytes(place.extents, size)
        if has_words(block, disc.directories):
            walk.room -= size
            found.append(Stray(start, place, read_listing(block, disc.directories, size, walk.limits)))
    return found


def outermost_first(walk: Walk, found: List[Stray]) -> List[Stray]:
    """Those that no other of them is the parent of come first."""
    addresses = {walk.space.address_at(one.start): one for one in found}
    return sorted(found, key=lambda one: addresses.get(one.listing.parent, one) is not one)


def adopt_strays(walk: Walk, claims: Claims, takes_deleted: bool, is_whole: bool, foreign: List[int]) -> int:
    """Takes the directories that nothing leads to into the tree, and answers how many seem to be deleted.

    If all else is whole, nothing has lost its entry: then they count as deleted too. `foreign` gets the places of those that lie
    in files.
    """
    deleted = 0
    for one in outermost_first(walk, strays(walk)):
        if one.start in walk.seen:
            continue
        owner = claims.owner(one.start)
        if owner and not owner.doubts and owner.there:
            foreign.append(one.start)
            continue
        is_deleted = is_whole or claims.is_free(one.start)
        deleted += is_deleted
        if not is_deleted:
            walk.adopt(one.start, one.place, one.listing, stale_by(walk, one, owner), False)
        elif takes_deleted:
            walk.adopt(one.start, one.place, one.listing, DELETED, True)
    return deleted


def stale_by(walk: Walk, stray: Stray, owner: Optional[Found]) -> str:
    """Why what the directory says is doubted.

    Nothing, if the directory that it names as its parent is damaged, or has an entry of its name that leads to none.
    """
    holder = walk.holder_at(stray.listing.parent)
    address = walk.space.address_at(stray.start)
    if not holder or owner or stray.listing.fault or address in (None, stray.listing.parent):
        return STRAY
    lost = walk.lost.get((holder.path, folded(stray.listing.name)))
    if lost and lost.is_sure and lost.listing.fault == NO_WORDS and walk.has_other_bytes(lost.place):
        return STRAY  # perhaps another disc's
    if lost or holder.is_damaged:
        return ""
    return STRAY


# ---- discs that were formatted anew


class Older(NamedTuple):
    """What is left of a disc with an old map under another format."""

    form: str
    number: int  # of directories


def older_disc(source: Source, disc: Disc) -> Optional[Older]:
    """The format with an old map whose directories lie in the image, although the disc isn't of it, with their number."""
    found = [Older(form, old_directories(source, form)) for form in ("D", "L") if form != disc.form]
    best = max(found, key=lambda one: one.number)
    return best if best.number else None


def old_directories(source: Source, form: str) -> int:
    """How many directories there are whose parent's address leads to another one, or to where the format has its root."""
    step, size, parent, root = (1024, 2048, 2010, 4) if form == "D" else (256, 1280, 1238, 2)
    parents = {}
    for start, piece in source.pieces(step, size):
        for at in range(0, len(piece) - size, step):
            if piece[at + 1:at + 5] in WORDS and piece[at + size - 5:at + size - 1] == piece[at + 1:at + 5]:
                parents[start + at] = number(piece, at + parent, 3) * UNIT
    return sum(one in parents or one == root * UNIT for one in parents.values())
