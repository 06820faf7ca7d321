# SPDX-License-Identifier: MIT
"""Where files lie on an E or E+ disc whose map is lost: worked out from the lengths of its objects and the places of directories.

FileCore gives out identifiers and space from the front, so on a disc that was filled in one go the identifiers lie in their order,
one after the other. Directories are found by their words, and some of their identifiers are known: where the lengths between two of
them fill just the space between them, all that lies between them is found.
"""
from __future__ import annotations

from typing import Dict, Iterator, List, NamedTuple, Tuple

from ..names import folded
from .directories import Item, Listing
from .records import FRESH_RUNS
from .source import Source
from .strays import strays
from .walk import Walk
from .zones import ZoneSpace

FEWEST_KNOWN = 3
MOST_LISTED = 2000  # directories of a floppy
REMARK = "the map of these files is lost: where they lie was worked out from their lengths and the places of directories"


class Seen(NamedTuple):
    """A directory that was found by its words, and where."""

    start: int
    listing: Listing


def work_out(walk: Walk, space: ZoneSpace, source: Source, is_emptied: bool) -> bool:
    """Gives the map the runs that can be worked out, if it is lost, or that of a disc that was emptied; whether there are any."""
    if space.disc.form not in ("E", "E+") or not source.length or space.has_own_runs or space.right_parts and not is_emptied:
        return False
    room = walk.room
    seen = [Seen(one.start, one.listing) for one in strays(walk)[:MOST_LISTED]]
    seen += [Seen(one.place.extents[0][0], one.listing) for one in walk.directories if not one.listing.is_lost]
    walk.room = room
    needed = spaces_needed(seen, space)
    known = places_known(seen, space)
    least = space.record.least * space.record.bit_bytes
    runs = [(identifier, start, needed[identifier]) for identifier, start in chained(known, needed, least)]
    if runs:
        space.add_runs(runs)
        space.remarks.append(REMARK)
    return bool(runs)


def spaces_needed(seen: List[Seen], space: ZoneSpace) -> Dict[int, int]:
    """The bytes that each identifier has, by the objects in it."""
    record = space.record
    needed: Dict[int, int] = {}
    size = 0 if space.disc.directories == "big" else 2048
    for item in (item for one in seen for item in one.listing.items):
        identifier, low = divmod(item.address, 256)
        length = size if size and item.is_directory else item.length
        if length and 2 < identifier < record.id_bound and length <= space.disc.size:
            end = ((low - 1) * record.share if low else 0) + length
            needed[identifier] = max(needed.get(identifier, 0), end)
    least = record.least * record.bit_bytes
    return {identifier: max(least, space.sectors(end) * record.sector) for identifier, end in needed.items()}


# ---- places that are known


def places_known(seen: List[Seen], space: ZoneSpace) -> Dict[int, int]:
    """Where identifiers begin: the first one after map and root of a fresh disc, and those of directories."""
    fresh = FRESH_RUNS[space.disc.form]
    known = {identifier: runs[0][0] * space.record.bit_bytes for identifier, runs in fresh.items()}
    known[max(fresh) + 1] = sum(bits for runs in fresh.values() for _, bits in runs) * space.record.bit_bytes
    for one, address in addresses_known(seen, space.root):
        identifier, low = divmod(address, 256)
        known.setdefault(identifier, one.start - ((low - 1) * space.record.share if low else 0))
    return known


def addresses_known(seen: List[Seen], root: int) -> Iterator[Tuple[Seen, int]]:
    """The addresses of directories: each that has an entry for another is that one's parent, and tells its address."""
    for outer in seen:
        for item in (item for item in outer.listing.items if item.is_directory):
            inner = [one for one in seen if one is not outer and folded(one.listing.name) == folded(item.name)]
            inner = [one for one in inner if is_parent(outer, one, item, seen, root)]
            if len(inner) == 1:
                yield inner[0], item.address
                yield outer, inner[0].listing.parent


def is_parent(outer: Seen, inner: Seen, item: Item, seen: List[Seen], root: int) -> bool:
    """Whether no other directory can be the one that the inner one names as its parent."""
    others = [one for one in seen if one is not inner and any(
        other.is_directory and folded(other.name) == folded(item.name) for other in one.listing.items)]
    return others == [outer] and inner.listing.parent not in (0, item.address)


# ---- the chain of identifiers


def chained(known: Dict[int, int], needed: Dict[int, int], least: int) -> List[Tuple[int, int]]:
    """The places that follow, each identifier's after the one before; none, if more known places contradict than agree."""
    agreeing, contradicting = agreement(known, needed, least)
    if contradicting and contradicting >= agreeing or len(known) < FEWEST_KNOWN:
        return []
    found: Dict[int, int] = {}
    for identifier in sorted(known):
        if identifier in needed:
            found.update({one: start for one, start in forwards(identifier, known, needed).items() if one not in found})
        found.update(backwards(identifier, known, needed, found))
    return sorted(found.items())


def agreement(known: Dict[int, int], needed: Dict[int, int], least: int) -> Tuple[int, int]:
    """How many neighbours among the known places agree with the lengths between them, and how many contradict."""
    agreeing = contradicting = 0
    order = sorted(known)
    for one, other in zip(order, order[1:]):
        between = [needed.get(at, 0) for at in range(one, other)]
        room = known[other] - known[one]
        if 0 in between:
            contradicting += room < sum(max(length, least) for length in between)
        else:
            agreeing += room == sum(between)
            contradicting += room != sum(between)
    return agreeing, contradicting


def forwards(identifier: int, known: Dict[int, int], needed: Dict[int, int]) -> Dict[int, int]:
    """The places from a known one on, up to the next known one or to an identifier of which nothing is known.

    Nothing, if that next known one lies elsewhere.
    """
    row: Dict[int, int] = {}
    at, place = identifier, known[identifier]
    while at in needed and (at == identifier or at not in known):
        row[at] = place
        place += needed[at]
        at += 1
    return row if known.get(at, place) == place else {identifier: known[identifier]}


def backwards(identifier: int, known: Dict[int, int], needed: Dict[int, int], found: Dict[int, int]) -> Dict[int, int]:
    """The places before a known one, down to the next known one or to an identifier of which nothing is known."""
    row: Dict[int, int] = {}
    at, place = identifier - 1, known[identifier]
    while at in needed and at not in found and at not in known:
        place -= needed[at]
        if place < 0:
            return {}
        row[at] = place
        at -= 1
    return row
