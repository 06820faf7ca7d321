# SPDX-License-Identifier: MIT
"""Whether a directory with a wrong check agrees with all else on the disc: only then its check may be made from its entries.

Names have their order, each object has just the sectors of its length, and this directory and those in it lie where they say. What
nothing else tells of stays open: letters that leave the order, words, attributes, and the end of a length within a sector.
"""
from __future__ import annotations

from typing import List

from ..names import folded
from .directories import Item, looks_right
from .places import Extent
from .reading import Reading
from .walk import Found
from .zones import ZoneSpace


def agrees(reading: Reading, found: Found, items: List[Item]) -> bool:
    size = 0 if reading.disc.directories == "big" else int(reading.disc.directories)
    names = [folded(item.name) for item in items]
    return (bool(items) and names == sorted(set(names)) and all(looks_right(item, reading.walk.limits, size) for item in items)
            and all(has_its_space(reading, item, size if size and item.is_directory else item.length) for item in items)
            and is_placed(found) and all(is_placed(one) and not one.listing.fault for one in reading.walk.directories
                                         if one.holder is found))


def has_its_space(reading: Reading, item: Item, length: int) -> bool:
    """Whether an object's sectors end where something else begins."""
    if not length:
        return True
    if not reading.walk.limits.can_be(item.address, length):
        return False
    space = reading.space
    if isinstance(space, ZoneSpace):
        return bool(item.address % 256) or space.bytes_of(item.address // 256) == space.needed(length)
    return is_followed(reading, space.place(item.address, length).extents[-1])


def is_followed(reading: Reading, extent: Extent) -> bool:
    """Whether what comes after it is free, another object, or the disc's end."""
    end = sum(extent)
    return end >= reading.disc.size or reading.claims.is_free(end) or reading.claims.owner(end) is not None


def is_placed(found: Found) -> bool:
    """Whether a directory says of itself what its entry says, and names its holder as parent."""
    own, holder = found.listing, found.holder or found
    return own.parent == holder.item.address and folded(own.name) == folded(found.item.name)


def guess_words(count: int) -> str:
    """What a keeper has to know of such a check: a wrong bit in an entry looks the same as one in the check."""
    if count == 1:
        return "its check, a guess: its entry agrees with the map, but its name, type, date or length may be wrong: compare it"
    text = "its check, a guess: its %d entries agree with the map, but a name, type, date or length may be wrong: compare them"
    return text % count
