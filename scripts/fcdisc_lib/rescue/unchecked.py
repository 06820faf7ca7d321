# SPDX-License-Identifier: MIT
"""Signs of damage in directories that have no check: those of L discs.

Each says that some of a directory's bytes aren't as they were written. On a disc that is whole none of them counts: programs have
written directories in other orders, and with other bytes where nothing is read.
"""
from __future__ import annotations

from typing import Dict, Iterator, List

from ..names import folded
from .directories import SMALL_PLACES, cut_name, is_plain, used_places
from .walk import Found, Walk

FORM, SIZE = "1280", 1280
PLACE, SECTOR = 26, 256  # bytes of an entry, and of a sector
FEWEST_LEFT = 7  # bytes other than 0 that an entry leaves which was removed
NAME_BYTES, NAME_ENDS = 10, (0, 13)
LAST_MARK, OWN_NAME, RESERVED, RESERVED_BYTES = 1227, 1228, 1260, 14
IN_DAMAGED = "its directory shows signs of damage, and on L discs nothing checks it"
ROOT = b"$"
OTHER_PARENT = "it names another directory as its parent"
BELOW_MISPLACED = "a directory that it lies below may have another name, or may not belong there"


def doubt_unchecked(walk: Walk) -> None:
    """Doubts what directories with such signs tell of. What lies deeper is judged by itself, but for its path."""
    misplaced: Dict[int, bool] = {}
    marked = set()
    for found in walk.directories:
        misplaced[id(found)] = found.holder is not None and misplaced.get(id(found.holder), False)
        if found.listing.is_lost or found.listing.fault:
            continue
        own = list(signs_of_place(found))
        signs = [*signs_within(walk.read_bytes(found.place.extents, SIZE)), *own]
        for sign in signs:
            found.doubt(sign)
        marked |= {id(found)} if signs else set()
        misplaced[id(found)] |= bool(own)
    for file in walk.files:
        if id(file.holder) in marked:
            file.doubt(IN_DAMAGED)
        elif misplaced.get(id(file.holder)):
            file.doubt(BELOW_MISPLACED)


def signs_within(block: bytes) -> Iterator[str]:
    """What of a directory's bytes can't be as it was written."""
    used = used_places(block, SMALL_PLACES[FORM])
    places = [block[5 + PLACE * at:5 + PLACE * (at + 1)] for at in range(SMALL_PLACES[FORM])]
    names = [name_of(place) for place in places[:used]]
    if not all(map(is_right_name, names)):
        yield "a name in it can't be"
    if not is_in_order([folded(cut_name(name)) for name in names]):
        yield "its names aren't in order"
    if any(place[NAME_BYTES - 1] & 128 for place in places[:used]):
        yield "an entry has an attribute that no system gives"
    if any(not any(block[at:at + SECTOR]) for at in range(SECTOR, 5 + PLACE * used, SECTOR)):
        yield "a sector of its entries has only zeros"
    if any(0 < PLACE - place.count(0) < FEWEST_LEFT for place in places[used:]):
        yield "there are stray bytes after its last entry"
    own = name_of(block[OWN_NAME:])
    if block[LAST_MARK] or any(block[RESERVED:RESERVED + RESERVED_BYTES]) or not (is_right_name(own) or cut_name(own) == ROOT):
        yield "bytes at its end can't be"


def name_of(field: bytes) -> bytes:
    return bytes(byte & 127 for byte in field[:NAME_BYTES])


def is_right_name(field: bytes) -> bool:
    """Whether a name can be, and ends as names do."""
    name = cut_name(field)
    return bool(name) and is_plain(name) and (len(name) == len(field) or field[len(name)] in NAME_ENDS)


def is_in_order(names: List[bytes]) -> bool:
    return all(one < other for one, other in zip(names, names[1:]))


def signs_of_place(found: Found) -> Iterator[str]:
    """Whether it says of itself what its entry and its holder say."""
    if found.holder is None or found.is_homeless:
        return
    if found.listing.parent != found.holder.item.address:
        yield OTHER_PARENT
    if folded(found.listing.name) != folded(found.item.name):
        yield "its entry has another name than itself"
